import type { Options } from './options';

/** The plugin, for `use(rehypeLatex2mathml, options)`. */
declare function rehypeLatex2mathml(options?: Options): (tree: object, file: object) => void;
export = rehypeLatex2mathml;
