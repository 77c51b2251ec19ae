--- Converts the formulas of a document to MathML if pandoc writes HTML or EPUB.
--
--     pandoc --lua-filter latex2mathml.lua -s a.md -o a.html
--
-- The filter walks the document twice. The first walk gathers formulas, definitions and labels. Then the program `tex2mathml`
-- converts all formulas in one run; it runs once more if a definition is refused. The second walk inserts the results.

local re = require 're'
-- groups may be nested more deeply than the default of a few hundred levels allows
require('lpeg').setmaxstack(1000000)

--- Ends the run with this message unless the condition holds.
local function ensure(condition, message, ...)
  if not condition then
    error('latex2mathml: ' .. message:format(...), 0)
  end
end

-- Raw TeX ------------------------------------------------------------------------------------------------------------

--- The parts of raw TeX that matter here, in order, up to a brace that is not closed. Everything else is skipped. A rule that fails
--- at a place stops early, so that the time stays linear.
local RAW_TEX = re.compile([=[
  parts       <- {| (definition / environment / reference / command / group / comment / [^{])* |}
  definition  <- {| {:kind: '' -> 'definition' :} {:text: { (new / def / operator / pair) } :} |}
  new         <- '\' ('newcommand' / 'renewcommand' / 'providecommand' / 'DeclareRobustCommand') end_of_word '*'? space name space option* group
  def         <- '\def' end_of_word space command [^{\]* group / '\let' end_of_word space command space '='? space (command / .)
  operator    <- '\DeclareMathOperator' end_of_word '*'? space name space group
  pair        <- '\DeclarePairedDelimiter' end_of_word space name space delimiter space delimiter
  delimiter   <- group / command / [^{}%s]
  environment <- {| {:kind: '' -> 'formula' :} {:text: { body } :} |}
  body        <- '\begin{' {:name: math '*'? :} '}' (!ending !another (comment / command / .))* ending
  ending      <- '\end{' =name '}'
  another     <- '\begin{' math '*'? '}'
  math        <- 'equation' / 'alignat' / 'align' / 'gather' / 'multline' / 'flalign' / 'eqnarray'
  reference   <- {| {:kind: '' -> 'reference' :} '\' {:type: 'eqref' / 'ref' :} '{' {:label: [^}]+ :} '}' |}
  name        <- group / command
  option      <- '[' (command / [^][\])* ']' space
  group       <- '{' (comment / command / group / [^{}])* '}'
  command     <- '\' ([A-Za-z]+ / .)
  end_of_word <- ![A-Za-z]
  space       <- (%s / comment)*
  comment     <- '%' [^%nl]*
]=])

local function is_tex(raw)
  return raw.format == 'tex' or raw.format == 'latex'
end

--- Whether pandoc expands macros. It has then carried out each `\let`: if that were done again, the name could mean something else.
local IS_EXPANDED = pandoc.List(PANDOC_READER_OPTIONS.extensions):includes('latex_macros')

--- The command that a definition defines.
local function defined_name(definition)
  return definition:match('^\\%a+%*?[%s{]*(\\%a+)') or definition:match('^\\%a+%*?[%s{]*(\\?.)')
end

--- A formula without its comments, whose contents do not count.
local function without_comments(source)
  return (source:gsub('\\%%', '  '):gsub('%%[^\n]*', ''))
end

--- The labels of a formula, in order.
local function labels_of(source)
  local labels = {}
  for label in without_comments(source):gmatch('\\label%s*{([^{}]+)}') do
    labels[#labels + 1] = label
  end
  return labels
end

-- Options ------------------------------------------------------------------------------------------------------------

--- The options that hold unless the metadata say otherwise.
local function default_options()
  return {
    program = 'tex2mathml', -- the program's path, or its name if it is on the search path
    strict = false, -- whether a refused formula ends the run
    definitions = false, -- a file of definitions, for the program
    macros = {}, -- definitions, each with its name
    annotation = false, -- whether the MathML also contains the formula itself
  }
end

local type_of = pandoc.utils.type

--- The only element of a value, or nil. In blocks, it may be inside a paragraph.
local function only_element(value)
  local only = #value == 1 and value[1] or nil
  if only and (only.t == 'Para' or only.t == 'Plain') then
    return only_element(only.content)
  end
  return only
end

--- The TeX that a value of the metadata represents, or nil if pandoc, to which it is Markdown, has not kept it as it was written.
local function tex_of(value)
  if type_of(value) == 'string' then
    return value
  elseif type_of(value) ~= 'Inlines' and type_of(value) ~= 'Blocks' then
    return nil
  end
  local only = only_element(value) or {}
  if only.t == 'Str' then
    return only.text:match('^%w+$')
  end
  return only.text
end

--- The number of arguments of a macro: the highest digit after a `#`.
local function count_arguments(body)
  local count = 0
  for digit in body:gsub('##', ''):gmatch('#(%d)') do
    count = math.max(count, tonumber(digit))
  end
  return count
end

--- The command that a name means, which may be written with or without its backslash.
local function command_of(name)
  local command = name:match('^\\') and name or '\\' .. name
  local is_name = command:match('^\\%a+$') or utf8.len(command) == 2 and not command:match('^\\%a')
  ensure(is_name, 'macros: "%s" is not the name of a command: letters, or one other character', name)
  return command
end

--- The body of a macro, and the number of its arguments: as many as a list says, or as the body has.
local function body_and_arguments(command, value)
  local list = type_of(value) == 'List' and value or {value}
  local body = tex_of(list[1])
  ensure(body, 'macros: write the body of %s between backquotes', command)
  ensure(not list[3], 'macros: %s has an argument with a default, which is not read', command)
  local count = pandoc.utils.stringify(list[2] or tostring(count_arguments(body)))
  ensure(count:match('^%d$'), 'macros: %s has a number of arguments that is not from 0 to 9: %s', command, count)
  return body, tonumber(count)
end

--- The definition of a macro, from its name and its value: TeX, or a list of TeX and the number of arguments.
local function definition_of(name, value)
  local command = command_of(name)
  local body, count = body_and_arguments(command, value)
  -- a comment at the end of the body must not reach the brace
  local last = body:find('%%') and '\n' or ''
  local arguments = count > 0 and ('[%d]'):format(count) or ''
  local text = ('\\newcommand{%s}%s{%s%s}'):format(command, arguments, body, last)
  return {name = command, text = text, body = body, is_option = true}
end

--- The definitions in a text.
local function definitions_in(value)
  local text = tex_of(value)
  local definitions = {}
  for _, part in ipairs(text and RAW_TEX:match(text) or {}) do
    if part.kind == 'definition' then
      definitions[#definitions + 1] = {name = defined_name(part.text), text = part.text, body = part.text, is_option = true}
    end
  end
  ensure(#definitions > 0, 'macros: neither a mapping from names to TeX nor a text of definitions')
  return definitions
end

--- The definitions of the option `macros`: those of a mapping in the order of their names, those of a text in its own order.
local function macros_of(value)
  if type_of(value) ~= 'table' then
    return definitions_in(value)
  end
  local definitions = pandoc.List {}
  for name, body in pairs(value) do
    definitions:insert(definition_of(name, body))
  end
  table.sort(definitions, function(first, second) return first.name < second.name end)
  return definitions
end

local function boolean_of(name, value)
  local text = type_of(value) == 'boolean' and tostring(value) or pandoc.utils.stringify(value)
  ensure(text == 'true' or text == 'false', 'the option %s is true or false', name)
  return text == 'true'
end

local READERS = {
  program = function(_, value) return pandoc.utils.stringify(value) end,
  definitions = function(_, value) return pandoc.utils.stringify(value) end,
  strict = boolean_of,
  annotation = boolean_of,
  macros = function(_, value) return macros_of(value) end,
}

--- Takes the options out of the metadata: those in `latex2mathml`, and those named `latex2mathml-NAME`.
local function take_options(meta)
  local given = meta.latex2mathml or {}
  ensure(type_of(given) == 'table', 'latex2mathml is a mapping with the options')
  meta.latex2mathml = nil
  for key, value in pairs(meta) do
    local name = key:match('^latex2mathml%-(.+)$')
    if name then
      given[name] = value
      meta[key] = nil
    end
  end
  local options = default_options()
  for name, value in pairs(given) do
    ensure(READERS[name], 'there is no option %s', name)
    options[name] = READERS[name](name, value)
  end
  return options
end

-- Warnings and errors ------------------------------------------------------------------------------------------------

--- The text on one line.
local function in_one_line(text)
  return text:gsub('%s+', ' '):match('^ ?(.-) ?$')
end

--- Reports what is wrong, as a warning of one line, or as an error that ends the run.
local function report(options, source, reason)
  local files = table.concat(PANDOC_STATE.input_files, ', '):gsub('^%-?$', 'standard input')
  local message = ('%s: %s: %s'):format(files, in_one_line(source), reason)
  ensure(not options.strict, '%s', message)
  io.stderr:write('[WARNING] latex2mathml: ', message, '\n')
end

-- The first walk -----------------------------------------------------------------------------------------------------

--- Gathers formulas (each with the number of definitions before it), definitions, the numbers of labels, and references in raw TeX.
local function gather(document, definitions)
  local formulas, numbers, last_number, references = {}, {}, 0, {}
  local is_done = false -- whether pandoc has carried out the definitions that follow
  local function add_formula(source, is_block)
    local formula = {source = source, is_block = is_block, definitions = #definitions, labels = {}}
    for _, label in ipairs(is_block and labels_of(source) or {}) do
      if not numbers[label] then
        last_number = last_number + 1
        numbers[label] = last_number
        table.insert(formula.labels, label)
      end
    end
    formulas[#formulas + 1] = formula
  end

  local function add_raw(raw)
    for _, part in ipairs(is_tex(raw) and RAW_TEX:match(raw.text) or {}) do
      is_done = is_done or IS_EXPANDED and part.kind == 'definition' and part.text:match('^\\let')
      if part.kind == 'definition' and (not is_done or part.text:match('^\\DeclarePaired')) then
        definitions[#definitions + 1] = {name = defined_name(part.text), text = part.text}
      elseif part.kind == 'formula' then
        add_formula(part.text, true)
      elseif part.kind == 'reference' then
        references[#references + 1] = part
      end
    end
  end

  document:walk {
    traverse = 'topdown',
    Math = function(math) add_formula(math.text, math.mathtype == 'DisplayMath') end,
    RawInline = add_raw,
    RawBlock = add_raw,
  }
  return formulas, numbers, references
end

--- Reports each `\eqref` that finds no formula. A `\ref` may refer to something else.
local function check_references(options, references, numbers)
  for _, reference in ipairs(references) do
    if reference.type == 'eqref' and not numbers[reference.label] then
      report(options, ('\\eqref{%s}'):format(reference.label), 'no formula has this label')
    end
  end
end

-- The program --------------------------------------------------------------------------------------------------------

--- The program's reply to each text, in order: whether it is markup, and the markup or the reason why there is none. The first line
--- of a text says whether the formula is for a line of text or for a block of its own.
local function ask(options, texts)
  local words = pandoc.List {'--null', '--display', 'each'}
  if options.definitions then
    words:extend {'--definitions', options.definitions}
  end
  if options.annotation then
    words:insert('--annotation')
  end
  local done, output = pcall(pandoc.pipe, options.program, words, table.concat(texts, '\0') .. '\0')
  ensure(done, '%s could not convert the formulas: %s', options.program, tostring(output))
  local replies = {}
  for kind, said in output:gmatch('(%l+)\n([^\0]*)\0') do
    replies[#replies + 1] = {is_markup = kind == 'mathml', said = said}
  end
  assert(#replies == #texts, 'there is a reply to each formula')
  return replies
end

--- The texts of the first `count` definitions, each followed by a line feed. An empty one is left out.
local function texts_of(definitions, count)
  local texts = {}
  for i = 1, count do
    texts[i] = definitions[i].text ~= '' and definitions[i].text .. '\n' or ''
  end
  return table.concat(texts)
end

--- The replies to the definitions, each alone, and then to the formulas, each after the definitions that precede it.
local function ask_about(options, definitions, formulas)
  local texts = {}
  for i, definition in ipairs(definitions) do
    texts[i] = 'inline\n' .. definition.text
  end
  for _, formula in ipairs(formulas) do
    formula.before = texts_of(definitions, formula.definitions)
    -- a NUL would end the formula, and Markdown also reads it as this character
    local source = formula.source:gsub('\0', '\u{FFFD}')
    texts[#texts + 1] = (formula.is_block and 'block\n' or 'inline\n') .. formula.before .. source
  end
  return ask(options, texts)
end

--- Whether the markup draws nothing, like that of a definition.
local function is_empty(markup)
  return markup:match('^<math[^>]*></math>$') or markup:match('^<math[^>]*><semantics><mrow></mrow><annotation')
end

--- Keeps the definitions that only define something, and reports what is wrong with the others. Returns whether all are kept.
local function check_definitions(options, definitions, replies)
  local all = true
  for i, definition in ipairs(definitions) do
    local reply = replies[i]
    if not (reply.is_markup and is_empty(reply.said)) then
      local reason = reply.is_markup and 'not a definition' or reply.said:gsub(' at %d+$', '')
      ensure(not definition.is_option, 'macros: %s: %s: %s', definition.name, reason, definition.body)
      report(options, definition.text, reason)
      definition.text, all = '', false
    end
  end
  return all
end

--- The reason with its place in the formula alone: the program read the definitions before it.
local function without_definitions(reason, definitions)
  return (reason:gsub(' at (%d+)$', function(place) return (' at %d'):format(tonumber(place) - #definitions) end))
end

--- The markup with an annotation of the formula alone, if it has one that begins with the definitions, a line for each.
local function without_annotated_definitions(markup, definitions)
  local _, count = definitions:gsub('\n', '')
  local function formula_of(start, text)
    return start .. text:gsub('[^\n]*\n', '', count)
  end
  markup = markup:gsub('( alttext=")([^"]*)', formula_of, 1)
  return (markup:gsub('(<annotation encoding="application/x%-tex">)([^<]*)', formula_of, 1))
end

--- Converts the formulas.
local function convert(options, definitions, formulas)
  if #definitions + #formulas == 0 then
    return
  end
  local replies = ask_about(options, definitions, formulas)
  if not check_definitions(options, definitions, replies) then
    replies = ask_about(options, definitions, formulas)
  end
  for i, formula in ipairs(formulas) do
    local reply = replies[#definitions + i]
    formula.markup = reply.is_markup and without_annotated_definitions(reply.said, formula.before) or nil
    formula.reason = not reply.is_markup and without_definitions(reply.said, formula.before) or nil
  end
end

-- The second walk ----------------------------------------------------------------------------------------------------

local REFERENCES = {['&'] = '&amp;', ['<'] = '&lt;', ['>'] = '&gt;', ['"'] = '&quot;', ['$'] = '&#x24;'}

local function escape(text)
  return (text:gsub('[&<>"$]', REFERENCES))
end

local function markup_of(formula)
  if formula.reason then
    return ('<code class="latex2mathml-refused" title="%s">%s</code>'):format(escape(formula.reason), escape(formula.source))
  end
  return formula.markup
end

--- The formula with its numbers next to it. It is the target of its labels.
local function with_numbers(formula, numbers)
  local shown, targets = {}, pandoc.Inlines {}
  for i, label in ipairs(formula.labels) do
    shown[i] = ('(%d)'):format(numbers[label])
    if i > 1 then
      targets:insert(pandoc.Span({}, {id = label}))
    end
  end
  local middle = pandoc.Span({pandoc.RawInline('html', markup_of(formula))}, {style = 'flex: 1; min-width: 0'})
  local number = pandoc.Span({pandoc.Str(table.concat(shown, ', '))}, {class = 'latex2mathml-number'})
  targets:extend {middle, number}
  return pandoc.Span(targets, {
    id = formula.labels[1], class = 'latex2mathml-numbered', style = 'display: flex; align-items: center',
  })
end

local function inline_of(formula, numbers)
  return #formula.labels > 0 and with_numbers(formula, numbers) or pandoc.RawInline('html', markup_of(formula))
end

--- The text of a reference to a number.
local function reference_text(kind, number)
  return (kind == 'eqref' and '(%d)' or '%d'):format(number)
end

--- Puts the converted formulas and the references to them into a document.
local function put(document, formulas, numbers)
  local count = 0

  local function next_inline()
    count = count + 1
    return inline_of(formulas[count], numbers)
  end

  local function link_to(part)
    local number = numbers[part.label]
    if not number then
      return nil
    end
    local attributes = pandoc.Attr('', {}, {{'reference-type', part.type}, {'reference', part.label}})
    return pandoc.Link(reference_text(part.type, number), '#' .. part.label, '', attributes)
  end

  local function inlines_of(raw)
    local inlines = pandoc.Inlines {}
    for _, part in ipairs(is_tex(raw) and RAW_TEX:match(raw.text) or {}) do
      local inline = part.kind == 'formula' and next_inline() or part.kind == 'reference' and link_to(part) or nil
      if inline then
        inlines:insert(inline)
      end
    end
    return #inlines > 0 and inlines or nil
  end

  --- Replaces the text of a reference from pandoc's LaTeX reader, which is the label in brackets, by the number.
  local function number_link(link)
    local label, kind = link.attributes.reference, link.attributes['reference-type']
    local number = label and numbers[label]
    if number and kind ~= 'ref+page' and pandoc.utils.stringify(link.content) == ('[%s]'):format(label) then
      link.content = {pandoc.Str(reference_text(kind, number))}
      return link
    end
  end

  --- Sets the alternative text of an image, in which formulas appear as they were written: it cannot contain markup.
  local function keep_alt(image)
    local has_math = false
    image.caption:walk {Math = function() has_math = true end}
    if has_math and not image.attributes.alt then
      image.attributes.alt = pandoc.utils.stringify(image.caption)
      return image
    end
  end

  return document:walk {
    traverse = 'topdown',
    Math = next_inline,
    RawInline = inlines_of,
    RawBlock = function(raw)
      local inlines = inlines_of(raw)
      return inlines and pandoc.Para(inlines)
    end,
    Link = number_link,
    Image = keep_alt,
  }
end

-- The document -------------------------------------------------------------------------------------------------------

--- Sets the page's title to the text of the document's, in which formulas appear as they were written: it cannot contain markup.
local function keep_title(meta)
  if meta.title and not meta.pagetitle then
    meta.pagetitle = pandoc.utils.stringify(meta.title)
  end
end

local function convert_document(document)
  local options = take_options(document.meta)
  keep_title(document.meta)
  local definitions = options.macros
  local formulas, numbers, references = gather(document, definitions)
  convert(options, definitions, formulas)
  for _, formula in ipairs(formulas) do
    if formula.reason then
      report(options, formula.source, formula.reason)
    end
  end
  check_references(options, references, numbers)
  return put(document, formulas, numbers)
end

local IS_HTML = FORMAT:match('^html') or FORMAT:match('^epub') or FORMAT:match('^chunkedhtml') or
  FORMAT:match('^s5') or FORMAT:match('^slid') or FORMAT:match('^dzslides') or FORMAT:match('^revealjs')

return IS_HTML and {{Pandoc = convert_document}} or {}
