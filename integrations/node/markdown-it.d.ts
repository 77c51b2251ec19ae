import type { Options } from './options';

declare namespace latex2mathml {
    interface MarkdownItOptions extends Options {
        /** Whether formulas may also be between `\(` and `\)` and between `\[` and `\]`. The default is true. */
        brackets?: boolean;
        /** The function that is called with each warning. The default is `console.warn`. */
        warn?: (message: string) => void;
    }
}

/** The plugin, for `md.use(latex2mathml, options)`, where `md` is a `MarkdownIt`. */
declare function latex2mathml(md: object, options?: latex2mathml.MarkdownItOptions): void;
export = latex2mathml;
