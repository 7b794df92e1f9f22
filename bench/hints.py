# Puts the hints #[inline], #[inline(always)], #[inline(never)] and #[cold] of the sources on the functions of a module that was compiled without
# them: bench/hints.py MODULE.ll ROOT. A function is found by its crate and its last name: where one crate has that name more than once, with
# different hints, also by the file.
import glob, os, re, sys

module, root = sys.argv[1], sys.argv[2]
WORDS = {'always': 'alwaysinline', 'never': 'noinline', 'hint': 'inlinehint', 'cold': 'cold noinline'}
marks = {}  # crate, name -> {file: hint or None}
for path in glob.glob(root + '/crates/*/src/*.rt'):
    crate, file = path.split('/')[-3], os.path.basename(path)[:-3]
    hint = None
    for line in open(path):
        m = re.match(r'\s*#\[(inline(?:\((always|never)\))?|cold)\]', line)
        if m:
            hint = m.group(2) or ('cold' if m.group(1) == 'cold' else 'hint')
            continue
        m = re.match(r'\s*(?:pub(?:\(crate\))? )?(?:const )?(?:extern "C" )?fn (\w+)', line)
        if m:
            files = marks.setdefault((crate, m.group(1)), {})
            files[file] = hint or files.get(file)  # a trait's method has the hints of its impls
            hint = None
text = open(module).read().split('\n')
numbers = {hint: 9000 + i for i, hint in enumerate(WORDS)}
done = 0
for i, line in enumerate(text):
    m = re.match(r'define .*@"([^"]+)"\(', line)
    if not m or not line.rstrip().endswith('#0 {'):
        continue
    parts = re.sub(r'<[^<>]*>', '', re.sub(r'<[^<>]*>', '', re.sub(r'<[^<>]*>', '', m.group(1)))).split('::')
    parts = [p for p in parts if p]
    found = marks.get((parts[0], parts[-1]), {})
    hint = found.get(parts[1] if len(parts) > 2 else 'lib')
    if hint is None and len(set(found.values())) == 1:
        hint = next(iter(found.values()))
    if hint:
        text[i] = line.rstrip()[:-4] + '#%d {' % numbers[hint]
        done += 1
base = next(line for line in text if line.startswith('attributes #0 ='))
body = base[base.index('{') + 1:]
for hint, words in WORDS.items():
    text.append('attributes #%d = { %s %s' % (numbers[hint], words, body))
open(module, 'w').write('\n'.join(text) + '\n')
print(done, 'hints', file=sys.stderr)
