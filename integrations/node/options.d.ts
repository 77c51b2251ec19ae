/** Macros: a text of definitions, or a mapping from names to TeX, or to TeX with the number of arguments. */
export type Macros = string | Record<string, string | [body: string, count?: number]>;

/** The options that all plugins take. README.md says more. */
export interface Options {
    /** The macros that formulas may use. */
    macros?: Macros;
    /** Whether the markup also contains the formula itself, as an annotation, so that a copy of it includes the LaTeX. */
    annotation?: boolean;
    /** Whether a refused formula is an error. */
    strict?: boolean;
}
