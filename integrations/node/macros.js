'use strict';
// Macros as JavaScript values: a mapping from names to TeX, as KaTeX takes it, or to TeX with a number of arguments, as MathJax
// takes it.

const COMMAND = /^\\([A-Za-z]+|[^A-Za-z])$/su;
const MOST_ARGUMENTS = 9;

/** Returns the error for what is not a macro. */
function wrong(message) {
    return new TypeError(`latex2mathml: macros: ${message}`);
}

/** Returns the number of arguments of a macro: the highest digit after a `#`. */
function countArguments(body) {
    const numbers = body.replace(/##/g, '').match(/#[1-9]/g) ?? [];
    return Math.max(0, ...numbers.map(number => Number(number[1])));
}

/** Returns the body of a macro and the number of its arguments. */
function bodyOf(command, value) {
    const [body, ...more] = Array.isArray(value) ? value : [value];
    const shown = JSON.stringify(value);
    if (typeof body !== 'string') throw wrong(`${command} is neither a text nor a list of a text and a number of arguments: ${shown}`);
    if (more.length > 1) throw wrong(`${command} has an argument with a default, which is not read: ${shown}`);
    const [count = countArguments(body)] = more;
    if (Number.isInteger(count) && count >= 0 && count <= MOST_ARGUMENTS) return [body, count];
    throw wrong(`${command} has a number of arguments that is not from 0 to ${MOST_ARGUMENTS}: ${JSON.stringify(count)}`);
}

/** Returns the error with the macro instead of a place, which would be in a definition that nobody wrote. */
function refusalOf(command, body, error) {
    error.message = `macros: ${command}: ${error.message.replace(/ at \d+$/, '')}: ${body}`;
    for (const name of ['place', 'line', 'column']) delete error[name];
    return error;
}

/** Returns the definition of a macro. `check` gets it, and throws an error if it is refused. */
function definitionOf(name, value, check) {
    const command = name.startsWith('\\') ? name : `\\${name}`;
    if (!COMMAND.test(command)) throw wrong(`${JSON.stringify(name)} is not the name of a command: letters, or one other character`);
    const [body, count] = bodyOf(command, value);
    // a comment at the end of the body must not reach the brace
    const last = body.includes('%') ? '\n' : '';
    const definition = `\\newcommand{${command}}${count > 0 ? `[${count}]` : ''}{${body}${last}}\n`;
    try {
        check(definition);
    } catch (error) {
        throw refusalOf(command, body, error);
    }
    return definition;
}

/** Returns the definitions for a mapping. `check` gets each definition, and throws an error if it is refused. */
function macroDefinitions(macros, check) {
    if (typeof macros !== 'object' || macros === null || Array.isArray(macros)) {
        throw wrong('neither a mapping from names to TeX nor a text of definitions');
    }
    return Object.entries(macros).map(([name, value]) => definitionOf(name, value, check)).join('');
}

module.exports = { macroDefinitions };
