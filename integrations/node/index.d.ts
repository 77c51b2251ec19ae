import type { Macros } from './options';

/**
 * The error for a refused formula, document or definition. The message is the reason. It may quote the formula: escape it in HTML.
 */
export class Refused extends Error {
    /** The byte of the text where the refused part begins, if it is known. */
    place?: number;
    /** The line of that byte, counted from 1, if it is known. */
    line?: number;
    /** The column of that byte in characters, counted from 1, if it is known. */
    column?: number;
}

/** Options of `tex`. */
export interface TexOptions {
    /** Whether the element also contains the formula itself, as an annotation, so that a copy of it includes the LaTeX. */
    annotation?: boolean;
}

/**
 * Returns the `math` element of a formula in LaTeX as authors write it, for a line of text or for a block of its own.
 * @param definitions a text of definitions, whose macros the formula may use
 * @throws {Refused} if the formula or the definitions cannot be read
 */
export function tex(formula: string, block?: boolean, definitions?: string, options?: TexOptions): string;

/**
 * Returns a text of definitions for `tex`.
 * @throws {Refused} if one of the definitions is refused
 * @throws {TypeError} if the macros are neither a mapping nor a text, a name is not the name of a command, a body is not a string,
 *     a number of arguments is not from 0 to 9, or an argument has a default
 */
export function definitionsOf(macros: Macros): string;

/**
 * Returns the `math` element of a formula as the Rust crate reads it, for a line of text or for a block of its own.
 * @param strict whether a formula with a marked error, such as an unknown command, is refused
 * @throws {Refused} if the formula cannot be read, for example because a brace is not closed
 */
export function formula(latex: string, block?: boolean, strict?: boolean): string;

/**
 * Returns the document with each formula between dollar signs replaced by its `math` element, as the Rust crate reads it.
 * @param strict whether a document with a marked error is refused
 * @throws {Refused} if the dollar signs do not pair, or a formula is refused
 */
export function document(text: string, strict?: boolean): string;
