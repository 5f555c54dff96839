#!/usr/bin/env python3
"""Writes the tables of docs/DESIGN-PASS.md anew, between its lists and what is still to do: each public item of src/ and each
definition of specs/ whose text is not what it was at the page's first line. Run at the top of the repository. It prints what is gone
and has no successor below."""
import glob
import os
import re
import subprocess

PAGE = 'docs/DESIGN-PASS.md'
OLD = open(PAGE).readline().strip()

# What states now what a public item, or a definition ('def'), stated that is gone: by crate and name, or for a definition by name.
SUCCESSORS = {
    ('block', 'enum BlockRead'): '`Result<Header, Refusal>`',
    ('block', 'enum Judgement'): '`Result<Judged, Refusal>`',
    ('check_blocks', 'slice::longest'): 'an array in `Case::is_met`',
    ('check_constants', 'fields::words'): '`check_samples::words_at`, the same clauses',
    ('check_levels', 'case::compare'): '`compare_codes`, `compare_differences`',
    ('check_levels', 'case::enum Call'): 'the call itself, as a closure',
    ('check_meters', 'read::read_at'): '`Read::at`, the same clauses',
    ('check_meters', 'read::struct Made'): "the answer of `made`, a bool, and the meter that is lent; the definition's `Made`",
    ('check_meters', 'slice::alike'): "the slices' `==`",
    ('check_pictures', 'call::call_at'): '`Call::at`',
    ('check_pictures', 'call::const CLOSE'): '`Kind::Close`',
    ('check_pictures', 'call::const NEW'): '`Kind::New`',
    ('check_pictures', 'call::const OPEN'): '`Kind::Open`',
    ('check_pictures', 'call::const ROW'): '`Kind::Row`',
    ('check_pictures', 'call::impl Call answer'): '`Call::made`, the same clauses',
    ('check_pictures', 'call::impl Call has'): '`check_answers::number_of`',
    ('check_pictures', 'lights::decode'): '`decode` of `main.rt`, private: the same lights, in an `ArrayVec`',
    ('check_readers', 'call::call_at'): '`Call::at`',
    ('check_readers', 'call::struct Made'): "the answer of `made`, a bool, and the reader that is lent; the definition's `Made`",
    ('check_readers', 'slice::alike'): "the slices' `==`",
    ('check_records', 'file::wide'): '`u32::from`',
    ('check_triples', 'fields::codes'): '`check_samples::codes_at`, the same clauses',
    ('check_triples', 'fields::words'): '`check_samples::words_at`, the same clauses',
    ('check_triples', 'same::codes'): '`==` of `Codes`, derived',
    ('check_triples', 'same::words'): '`==` of `Words`, derived',
    ('constant_luminance', 'enum Decoded'): '`Result<Clipped, Refusal>`',
    ('constant_luminance', 'enum Encoded'): '`Result<Words, Refusal>`',
    ('constant_luminance', 'enum Named'): '`Result<ConstantSystem, Refusal>`',
    ('constant_luminance', 'impl ConstantSystem from_number'): '`TryFrom<u32>`, by `Names`',
    ('depth', 'enum Changed'): '`Result<(), Refusal>`',
    ('ferghulta', 'calls::not_read'): '`BlockAnswer::from` of an `Err`: `block_answer (outcome found)`',
    ('ferghulta', 'stored_picture::picture_of'): '`From<StoredPicture> for Picture`, the same equation',
    ('ferghulta', 'stored_picture::stored'): '`From<Picture> for StoredPicture`, the same equation',
    ('ferghulta', 'stored_reader::reader_of'): '`From<StoredReader> for Reader`, the same equation',
    ('ferghulta', 'stored_reader::stored_reader'): '`From<Reader> for StoredReader`, the same equation',
    ('levels', 'enum CodeLevel'): '`Result<Level, Refusal>`',
    ('light', 'enum CodeSpan'): '`Result<Span, Refusal>`',
    ('light', 'enum LightCode'): '`Result<u16, Refusal>`',
    ('listing', 'text::put_decimal'): '`put_decimal`, private',
    ('listing', 'text::put_word'): '`put_field`, by `try_extend_from_slice`',
    ('luminance_10', '*'): '`impl luminance::Thresholds for Bits10`: the same fact of what `result` points to, and its length, which of the index is said by `luminance::WholeIndex`; `BUCKET` is the constant of the trait',
    ('luminance_12', '*'): '`impl luminance::Thresholds for Bits12`: the same fact of what `result` points to, and its length, which of the index is said by `luminance::WholeIndex`; `BUCKET` is the constant of the trait',
    ('thresholds_8', '*'): '`impl curve::Thresholds for Bits8`: the same fact of what `result` points to, and its length, which of the index is said by `curve::WholeIndex`; `SHIFT` is the constant of the trait',
    ('thresholds_10', '*'): '`impl curve::Thresholds for Bits10`: the same fact of what `result` points to, and its length, which of the index is said by `curve::WholeIndex`; `SHIFT` is the constant of the trait',
    ('thresholds_12', '*'): '`impl curve::Thresholds for Bits12`: the same fact of what `result` points to, and its length, which of the index is said by `curve::WholeIndex`; `SHIFT` is the constant of the trait',
    ('matrix', 'enum Decoded'): '`Result<Clipped, Refusal>`',
    ('matrix', 'enum Encoded'): '`Result<Limited, Refusal>`',
    ('picture', 'enum Change'): '`Result<Picture, Refusal>`',
    ('picture', 'enum Total'): '`Result<u32, Refusal>`',
    ('reader', 'enum Change'): '`Result<Reader, Refusal>`',
    ('reader', 'enum Format'): '`Option<Format>`, `Format` a struct of system and width',
    ('reader', 'enum RowRead'): '`Result<Taken, Refusal>`',
    ('segmented', 'enum Moved'): '`Result<(), Refusal>`',
    ('signals', 'enum Quantised'): '`Result<Codes, Refusal>`',
    ('signals', 'enum Restored'): '`Result<Signals, Refusal>`',
    ('systems', 'enum Named'): '`Result<System, Refusal>`',
    ('systems', 'impl System from_number'): '`TryFrom<u32>`, by `Names`',
    ('def', 'block', 'at_least'): '`max` of the Prelude',
    ('def', 'block', 'at_most'): '`min` of the Prelude',
    ('def', 'block', 'one_of'): 'nothing cited it',
    ('def', 'check_blocks', 'agrees'): '`agrees` of `check_answers`',
    ('def', 'check_meters', 'agrees'): '`agrees` of `check_answers`',
    ('def', 'check_pictures', 'agrees'): "`answered`, of the answer's number",
    ('def', 'check_depths', 'agrees'): '`eqb (number_of ..)`, `number_of` of `check_answers`',
    ('def', 'complete_at'): 'the clause of the `at` that reads a case: `length .. < at + size_at ..`, or the case and that it is there whole',
    ('def', 'due_to'): '`are_due`: the same test of every place',
    ('def', 'same_header'): '`seen`, and `==` of `Due`, in `check_answers`',
    ('def', 'check_constants', 'words_in'): '`words_in` of `check_samples`',
    ('def', 'check_triples', 'codes_in'): '`codes_in` of `check_samples`',
    ('def', 'check_triples', 'words_in'): '`words_in` of `check_samples`',
    ('def', 'check_levels', 'level_agrees'): '`agrees`',
    ('def', 'check_levels', 'level_by'): "the call's own definition, which `level_at` takes",
    ('def', 'check_levels', 'level_met'): '`level_at`',
    ('def', 'check_pictures', 'State'): "the program's `Play`",
    ('def', 'check_pictures', 'state'): "the program's `Play`",
    ('def', 'check_pictures', 'state_after'): '`play_after`',
    ('def', 'check_readers', 'is_at'): '`is_left`',
    ('def', 'check_readers', 'leaving'): '`made`, once for each call',
    ('def', 'IsPrefixLen'): "an `ArrayVec`'s length, which is never above its room, and `take`; no contract cites it",
    ('def', 'Put'): "an equation of the text's bytes, and of its length",
    ('def', 'constant_luminance', 'Tables'): '`luminance::Thresholds`',
    ('def', 'check_zimg', 'words_in'): '`words_in` of `check_samples`',
    ('def', 'check_zimg', 'codes_in'): '`codes_in` of `check_samples`',
    ('def', 'found'): '`outcome` of `systems`',
    ('def', 'matrix', 'triple'): '`narrow`',
    ('def', 'meter', 'total'): '`sum` of the Prelude',
    **{('def', n): '`outcome` of `systems`' for n in (
        'count_outcome', 'header_outcome', 'judged_outcome', 'codes_outcome', 'words_outcome', 'changed_outcome',
        'level_outcome', 'code_outcome', 'span_outcome', 'phase_outcome', 'picture_outcome', 'size_outcome',
        'total_outcome', 'reader_outcome', 'taken_outcome', 'moved_outcome', 'quantised_outcome', 'restored_outcome')},
}


def git(*words):
    return subprocess.run(['git', *words], capture_output=True, text=True, check=True).stdout


def old_files():
    return [p for p in git('ls-tree', '-r', '--name-only', OLD).split('\n') if p.startswith('crates/')]


def old_text(path):
    return git('show', OLD + ':' + path)


def new_files():
    return [p for p in glob.glob('crates/*/**/*', recursive=True) if os.path.isfile(p) and '/out/' not in p]


def new_text(path):
    return open(path).read()


def end_of_body(text, at):
    """The place of the brace that closes the first one from a place on."""
    depth = 0
    while at < len(text):
        if text.startswith('//', at):
            at = text.index('\n', at)
            continue
        if text[at] == '"':
            at += 1
            while text[at] != '"':
                at += 2 if text[at] == '\\' else 1
        elif text[at] == "'":
            char = re.match(r"'(\\.|[^\\'])'", text[at:])
            at += char.end() - 1 if char else 0
        elif text[at] == '{':
            depth += 1
        elif text[at] == '}':
            depth -= 1
            if depth == 0:
                return at
        at += 1


def in_a_line(text):
    text = re.sub(r'\s+', ' ', text).strip()
    return re.sub(r'\( ', '(', re.sub(r',? \)', ')', text))


def functions(text):
    """Public functions and those of impls of a trait, with their contracts, by what they stand in."""
    blocks = []
    for m in re.finditer(r'^((?:pub )?(?:impl|trait)\b[^\n{]*)\{', text, re.M):
        blocks.append((m.start(), end_of_body(text, m.end() - 1), m.group(1).strip()))
    for m in re.finditer(r'^( *)(?:#\[unsafe\(no_mangle\)\]\n\1)?(pub )?(extern "C" )?fn (\w+)', text, re.M):
        head = next((h for start, end, h in blocks if start <= m.start() <= end), '')
        if not m.group(2) and not (' for ' in head or head.startswith(('trait', 'pub trait'))):
            continue
        end = re.compile(r'(?:^%s\{\n| \{\n|;\n)' % m.group(1), re.M).search(text, m.end()).start()
        signature = re.sub(r'^#\[.*?\] ', '', in_a_line(text[m.start():end]))
        yield (head + ' ' if head else '') + m.group(4), (head.replace('pub ', '') + ': ' if head else '') + signature


def types(text):
    """Public structs, enums, constants and traits."""
    for m in re.finditer(r'^((?:#\[[^\n]*\]\n)*)pub (struct|enum|const|type|trait) (\w+)([^\n]*)\n', text, re.M):
        if m.group(4).rstrip().endswith('{'):
            body = text[m.start():end_of_body(text, text.index('{', m.start(4))) + 1]
            body = re.sub(r'\n *//[^\n]*', '', body)
            if m.group(2) == 'trait':
                body = re.sub(r'fn \w+.*', '', body, flags=re.S)
        else:
            body = text[m.start():text.index(';', m.start()) + 1] if ';' in text[m.start():] else m.group(0)
            if len(body) > 400:
                body = body[:80] + ' ..'
        yield m.group(2) + ' ' + m.group(3), in_a_line(body)


def items(files, text_of):
    found = {}
    for path in files:
        m = re.match(r'crates/(\w+)/src/(\w+)\.rt$', path)
        if m:
            module = '' if m.group(2) in ('lib', 'main') else m.group(2) + '::'
            text = text_of(path)
            for name, item in [*functions(text), *types(text)]:
                found[(m.group(1), module + name)] = item
    return found


DEFINITION = (r'^((?:unfoldable |abbrev )?pub (?:abbrev |unfoldable |record |data )?|abbrev pub |unfoldable pub |pub )([^\s:(]+)'
              r'(.*(?:\n(?!\n)(?!(?:--|abbrev|unfoldable|pub|infix)).*)*)')


def definitions(files, text_of, paths):
    found = {}
    for path in files:
        if re.match(paths, path):
            for m in re.finditer(DEFINITION, text_of(path), re.M):
                if m.group(2) != 'mod':
                    found[(path.split('/')[1], m.group(2))] = in_a_line(m.group(0))
    return found


def changed(old, new):
    return sorted(k for k in old if k in new and old[k] != new[k])


def only_in(one, other):
    return sorted(k for k in one if k not in other)


def cell(text):
    return text.replace('|', '\\|')


def code(text):
    ticks = '``' if '`' in text else '`'
    return ticks + cell(text) + ticks


def table(titles, rows):
    lines = ['| ' + ' | '.join(titles) + ' |', '|' + '---|' * len(titles)]
    return '\n'.join(lines + ['| ' + ' | '.join(row) + ' |' for row in rows])


def both(keys, old, new):
    return table(('crate', 'was', 'is'), [(k[0], code(old[k]), code(new[k])) for k in keys])


def is_program(key):
    return key[0].startswith('check_') or key[0] == 'rowlist'


def item_successor(key):
    return SUCCESSORS.get(key) or SUCCESSORS.get((key[0], '*')) or ''


def definition_successor(key):
    return SUCCESSORS.get(('def', *key)) or SUCCESSORS.get(('def', key[1])) or ''


def main():
    before, after = (old_files(), old_text), (new_files(), new_text)
    old, new = items(*before), items(*after)
    specs = r'crates/\w+/specs/\w+\.antt$'
    old_specs, new_specs = definitions(*before, specs), definitions(*after, specs)
    cards = r'crates/\w+/proofs/(Claims|Theorem|Demand|Card|Told|Bench|Exported|Calls|Answerable)\.antt$'
    old_cards, new_cards = definitions(*before, cards), definitions(*after, cards)
    gone, gone_specs = only_in(old, new), only_in(old_specs, new_specs)
    sections = [
        '### Public functions, types, constants and traits of the stages, in other words',
        both([k for k in changed(old, new) if not is_program(k)], old, new),
        '### Of the programs, in other words',
        'What a program has `pub` is for its own modules; `check_records`, `check_samples` and `check_answers` are crates that programs call.',
        both([k for k in changed(old, new) if is_program(k)], old, new),
        '### Public items that are gone, and what states their promise now',
        table(('crate', 'was', 'stated now by'), [(k[0], code(old[k]), cell(item_successor(k))) for k in gone]),
        '### New public items',
        table(('crate', 'is'), [(k[0], code(new[k])) for k in only_in(new, old)]),
        '### Definitions of specs/, in other words',
        both(changed(old_specs, new_specs), old_specs, new_specs),
        '### Definitions that are gone, and what says it now',
        table(('crate', 'was', 'now'), [(k[0], code(old_specs[k]), cell(definition_successor(k))) for k in gone_specs]),
        '### New definitions',
        table(('crate', 'is'), [(k[0], code(new_specs[k])) for k in only_in(new_specs, old_specs)]),
        '### Cards of the theorems, in other words',
        'No statement of `Claims.antt`, `Theorem.antt`, `Demand.antt` or `Bench.antt` changed but for the rows below. In a card the answer of a call is `Result .. Refusal` where it was an enum of the call\'s own, and `outcome` reads it.',
        both([k for k in changed(old_cards, new_cards) if k[1] not in ('read_for', 'change_for')], old_cards, new_cards),
    ]
    page = open(PAGE).read()
    start = page.index(sections[0])
    end = page.index('## Still to do' if '## Still to do' in page else '## The table')
    with open(PAGE, 'w') as out:
        out.write(page[:start] + '\n\n'.join(sections) + '\n\n' + page[end:])
    print('without a successor:', [k for k in gone if not item_successor(k)], [k for k in gone_specs if not definition_successor(k)])


main()
