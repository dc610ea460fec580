"""Where a tree may tell that memory was wanting: says what stands elsewhere, and ends with 1 where anything does.

Each function of refused_memory that answers Memory is one `match` over a call of the list below, whose only other arm passes on what the call
gave; `refused` makes the error in that place alone; and no crate but those of tests names the errors of the standard library."""
import pathlib
import re
import sys

CALLS = {
    'Vec::with_capacity(alloc, capacity)', 'Vec::from_elem(alloc, item, count)', 'items.to_vec(alloc)', 'list.reserve(additional)', 'list.push(item)',
    'list.extend_from_slice(more)', 'String::from_str(alloc, text)', 'IndexMap::with_capacity(alloc, capacity)', 'map.insert(key, value)',
    'reader.read_byte_record(row)', 'Table::of_words(alloc, words, about)',
}
BODY = re.compile(r'match (.+) \{ Ok\((\w+|\(\))\) => Ok\(\2\), Err\(_\) => Err\(refused\(\)\), \}')
WORDS = ('match env::args(rt) { Ok(args) => Ok(Some(args)), Err(e) if e.kind() == ErrorKind::OutOfMemory => Err(refused()), '
         'Err(_) => Ok(None), }')
MEMORY = '''pub(crate) fn refused() -> Memory {
    struct Std;

    impl Tells for Std {
        ghost use Rattle.refused_memory.specs.{refused_by_std};

        ghost refused = { refused_by_std };
    }

    told::<Std>()
}'''

tree = pathlib.Path(sys.argv[1])
wrong = []
crate = tree / 'crates' / 'refused_memory'


def code(file):
    """The lines of a source without comments."""
    return '\n'.join(line for line in file.read_text().split('\n') if not line.lstrip().startswith('//'))


for file in sorted((crate / 'src').glob('**/*.rt')):
    text = code(file)
    if file.name == 'memory.rt':
        if MEMORY not in text or text.count('refused_by_std') != 2 or text.count('Memory {') != 4:
            wrong.append(f'{file}: `refused` has not the form that is known')
        continue
    functions = re.findall(r'^pub fn (\w+).*?^\{\n(.*?)^\}', text, re.M | re.S)
    if file.name == 'command_line.rt':
        functions = re.findall(r'^pub fn (\w+)\(.*?\{\n(.*?)^\}', text, re.M | re.S)
    told = 0
    for name, body in functions:
        body = ' '.join(body.split())
        found = BODY.fullmatch(body)
        if body != WORDS and not (found and found[1] in CALLS):
            wrong.append(f'{file}: the body of `{name}` is not one match over a call that is known')
        told += body.count('refused()')
    if told != text.count('refused()') or len(functions) != text.count('pub fn ') or text.count('fn ') != text.count('pub fn '):
        wrong.append(f'{file}: `refused` is called, or a function stands, where no public function is')

for file in sorted(tree.glob('crates/*/src/**/*.rt')):
    if re.search(r'/(worked_cases|\w+_tests)/src/', str(file)) or crate in file.parents:
        continue
    for word in ('AllocError', 'AllocFailed', 'refused_by_std'):
        if re.search(rf'\b{word}\b', code(file)):
            wrong.append(f'{file}: names `{word}`')
files = [file for kind in ('specs', 'proofs') for file in tree.glob(f'crates/*/{kind}/**/*.antt')]
for file in sorted(files):
    if 'refused_by_std' in file.read_text() and file != crate / 'specs' / 'Lib.antt':
        wrong.append(f'{file}: names `refused_by_std`')

print('\n'.join(wrong))
sys.exit(1 if wrong else 0)
