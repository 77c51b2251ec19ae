import type { Options } from './options';

/** The plugin, for `use(remarkLatex2mathml, options)` after remark-math. */
declare function remarkLatex2mathml(options?: Options): (tree: object, file: object) => void;
export = remarkLatex2mathml;
