"""Trials of changed crates: copies of the repository in which one crate at a time is changed and checked anew.

A trial starts from what the crate's last check kept, so only the modules that a change reaches are checked.
"""
import concurrent.futures
import contextlib
import difflib
import os
import pathlib
import queue
import re
import shutil
import subprocess
import tempfile

ROOT = pathlib.Path(__file__).resolve().parent.parent

# A check takes seconds; one that takes so long is given up.
LONGEST = 600


def workers():
    """How many checks run at a time."""
    return int(os.environ.get('RT_JOBS') or min(os.cpu_count() or 1, 4))


def crates_below(crates):
    """These crates and all that they stand on, lowest first."""
    lines = [line.split('#')[0].partition(':') for line in (ROOT / 'crates.txt').read_text().splitlines()]
    needs = {head.split()[0]: names.split() for head, colon, names in lines if colon}
    found = []

    def visit(crate):
        if crate in needs and crate not in found:
            for below in needs[crate]:
                visit(below)
            found.append(crate)

    for crate in crates:
        visit(crate)
    return found


def prove(crates):
    """Proves these crates in this tree, where they have changed since they were last proved; the run of one that is not proved, or None."""
    def proved(crate):
        return subprocess.run(['rt', 'check', '--jobs', '1'], cwd=ROOT / 'crates' / crate, stdin=subprocess.DEVNULL, capture_output=True, text=True)

    (ROOT / 'build').mkdir(exist_ok=True)
    with concurrent.futures.ThreadPoolExecutor(workers()) as pool:
        runs = list(pool.map(proved, [crate for crate in crates_below(crates) if crate in crates]))
    return next((run for run in runs if run.returncode != 0), None)


def linked(one, other):
    """Copies a file; what was proved by a link: a check replaces such a file, and changes none."""
    if one.endswith('.oantt'):
        try:
            os.link(one, other)
            return
        except OSError:  # on another file system
            pass
    shutil.copy2(one, other)


def kept(crate):
    """The folder of what the crate's last check in this tree kept."""
    return ROOT / 'crates' / crate / 'out' / 'incremental'


def develop(copy, crate, functions=()):
    """Checks a crate over what its last check kept: all of it, or these functions with what they call."""
    folder = copy / 'crates' / crate
    shutil.rmtree(folder / 'out' / 'incremental', ignore_errors=True)
    shutil.copytree(kept(crate), folder / 'out' / 'incremental', copy_function=linked)
    only = [word for function in functions for word in ('--only', function)]
    words = ['timeout', str(LONGEST), 'rt', 'check', '--jobs', '1', *only]
    return subprocess.run(words, cwd=folder, stdin=subprocess.DEVNULL, stdout=subprocess.PIPE, stderr=subprocess.STDOUT, text=True)


def judged(run):
    """What the prover said: 'proved', 'refused', or 'stopped' where the text did not reach it."""
    if run.returncode == 0:
        return 'proved'
    if run.returncode == 1 and re.search(r'^(logic=not-proved|only=\d+ proved=\d+)$', run.stdout, re.M):
        return 'refused'
    return 'stopped'


REFUSAL = re.compile(r'(?:\./)?(\S+?):\d+:\d+: error: ')
# The prover's words where something that is cited was refused elsewhere, or stands behind that.
NOT_ADMITTED = re.compile(r'was not (?:admitted|checked)|were not checked')
# Its words where a name, a field or a case is not there: nothing was asked of a fact.
NO_NAME = re.compile(r'that can be named from here|is not in scope|has no field|has no such field|is not a field of record|has no `'
                     r'|is no name|is private|is not declared|explicit arguments more than')


def refusals(run):
    """For each file of the crate with a refusal what the prover says there, in its order."""
    found = {}
    for line in run.stdout.splitlines():
        if refusal := REFUSAL.match(line):
            found.setdefault(refusal[1], []).append(line)
    return found


def first_refusal(run, name=''):
    """The file of the crate in which the first refusal falls, and what the prover says there; of several ways at once that of this name."""
    for file, said in refusals(run).items():
        if not name:
            return file, said[0]
        if f'/{name}/' in file:
            return file.replace(f'{name}/', '', 1), said[0]
    return None, ''


def declaration_of(said):
    """The declaration that a refusal is about."""
    found = re.search(r': error: `([^`]+)`: ', said)
    return found and found[1]


def is_about_a_fact(said):
    """Whether a refusal says that a fact does not hold, and not that something it names is missing or refused itself."""
    return not NOT_ADMITTED.search(said) and not NO_NAME.search(re.sub(r': error: `[^`]*`:', ':', said, count=1))


# ---- Functions.

def source(folder):
    """The text of a crate's code; those that are changed here have one file."""
    return next((folder / 'src').glob('*.rt')).read_text()


def only_facts(folder):
    """Whether a crate is one of definitions and facts alone: it has no function."""
    return not re.search(r'^ *(pub )?(extern "C" )?fn ', source(folder), re.M)


LEFT = re.compile(r'`search` did not prove ((?:`[^`]+`(?:, | and )?)+)')


def folders_of(function):
    """Where a function's proof may stand: of words::put_word proofs/put_word, and proofs/+put_word if it calls itself."""
    *path, name = function.split('::')[1:]
    return ['/'.join(['proofs', *path, word]) for word in (name, '+' + name)]


def goals_refused(run, function):
    """The goals of a function that are refused themselves: by its answers, or because nothing was found for them; and what else was said of it."""
    said = [line for file, lines in refusals(run).items() if os.path.dirname(file) in folders_of(function) for line in lines]
    verdict = re.search(rf'^fn {re.escape(function)}: (not proved|no proof)(.*)$', run.stdout, re.M)
    if not verdict:
        return [], said
    goals = [declaration_of(line) for line in said if is_about_a_fact(line)]
    # an answer to a goal that is not there: the goal that took its place has none, which says nothing of the program
    if not any(NO_NAME.search(line) or NOT_ADMITTED.search(line) for line in said):
        goals += [goal for found in LEFT.findall(verdict[2]) for goal in re.findall(r'`([^`]+)`', found)]
    return [goal for goal in goals if goal], said + [verdict[0]]


NAME = re.compile(r"[\w'◌+-]+")


def goals_text(copy, crate, function):
    """The lines of what rt generates of a function's goals and of the facts that are known at each."""
    with tempfile.TemporaryDirectory() as space:
        words = ['timeout', str(LONGEST), 'rt', 'check', '--jobs', '1', '--start', function, '--generated', space]
        subprocess.run(words, cwd=copy / 'crates' / crate, stdin=subprocess.DEVNULL, stdout=subprocess.DEVNULL, stderr=subprocess.DEVNULL)
        places = [pathlib.Path(space) / folder.replace('proofs', f'Rattle-{crate}-proofs', 1) for folder in folders_of(function)]
        files = sorted(file for place in places for file in place.rglob('*.antt') if 'Code' not in file.parts)
        return [line for file in files for line in file.read_text().splitlines()]


def respelled(before, after):
    """The names that stand in other lines' places, of two programs that have as many steps."""
    found = {}
    for tag, i, j, k, m in difflib.SequenceMatcher(None, before, after, autojunk=False).get_opcodes():
        for line, other in zip(before[i:j], after[k:m]) if tag == 'replace' and j - i == m - k else ():
            names, others = NAME.findall(line), NAME.findall(other)
            if len(names) == len(others):
                found |= {name: told for name, told in zip(names, others) if name != told and '-' in name}
    return found


# ---- Parts of a crate of definitions and facts alone.

USE = re.compile(r'^use Rattle\.(\w+)\.(specs|proofs)\.([\w.]+)\.\{', re.M)
MODULE = re.compile(r'^(?:pub )?mod (\w+)$', re.M)


def used_by(text, folder):
    """The files of a crate's specs and proofs that a text of it uses; what its code declares has no file."""
    used = [f'{part}/{module.replace(".", "/")}.antt' for owner, part, module in USE.findall(text) if owner == folder.name]
    return [path for path in used if (folder / path).is_file()]


def closure(folder, wanted, texts):
    """These files of a crate and all that they use; `texts` has what is changed already."""
    found, todo = set(), list(wanted)
    while todo:
        path = todo.pop()
        if path not in found:
            found.add(path)
            todo += used_by(text_of(folder / path, texts), folder)
    return found


def part_of(folder, needed, texts):
    """The changes that leave of a crate only these files and the lists of modules that lead to them."""
    part = {}
    for file in [*(folder / 'specs').rglob('*.antt'), *(folder / 'proofs').rglob('*.antt')]:
        path, text = str(file.relative_to(folder)), text_of(file, texts)
        if path in needed:
            continue
        # a list of modules keeps those that are needed, and those with a file below them that is
        below = path.removesuffix('Lib.antt') if path in ('specs/Lib.antt', 'proofs/Lib.antt') else path.removesuffix('.antt') + '/'
        lines = [found[0] for found in MODULE.finditer(text) if any(k.startswith((f'{below}{found[1]}.', f'{below}{found[1]}/')) for k in needed)]
        part[file] = ''.join(f'{line}\n' for line in lines) or None
    return part


def affected(folder, needed, texts):
    """Of the files that are needed those that are changed, and those that use such a file."""
    found = {path for path in needed if folder / path in texts}
    while True:
        more = {path for path in needed - found if found & set(used_by(text_of(folder / path, texts), folder))}
        if not more:
            return found
        found |= more


def below(name, path):
    """The place of a file of specs/ or proofs/ in a folder of this name there."""
    part, _, rest = path.partition('/')
    return f'{part}/{name}/{rest}'


def beside(folder, many):
    """The changes that leave of a crate what some of its files use, changed in several ways at once; `many` has a name for each way, the
    files and the texts that are changed. What one of these reaches stands in a folder of that name, and the rest as it is."""
    kept_files, made = set(), {}
    for name, (wanted, texts) in many.items():
        needed = closure(folder, wanted, texts)
        moved = affected(folder, needed, texts)
        kept_files |= needed - moved
        module = re.compile(rf'(?<=Rattle\.{folder.name}\.)(specs|proofs)\.([\w.]+)(?=\.\{{)')

        def place(found):
            path = f'{found[1]}/{found[2].replace(".", "/")}.antt'
            return f'{found[1]}.{name}.{found[2]}' if path in moved else found[0]

        for path in moved:
            made[below(name, path)] = module.sub(place, text_of(folder / path, texts))
    changes = part_of(folder, kept_files, {})
    # the lists of modules of the new folders
    lists = {}
    for path in made:
        part, *names = path.removesuffix('.antt').split('/')
        for end in range(1, len(names)):
            lists.setdefault('/'.join([part, *names[:end]]) + '.antt', set()).add(names[end])
        lists.setdefault(f'{part}/Lib.antt', set()).add(names[0])
    for path, names in lists.items():
        before = changes.get(folder / path) or '' if path.endswith('/Lib.antt') else made.get(path, '')
        made[path] = before + ''.join(f'pub mod {name}\n' for name in sorted(names))
    return changes | {folder / path: text for path, text in made.items()}


def text_of(file, texts):
    return texts.get(file) or file.read_text()


@contextlib.contextmanager
def changed(texts):
    """Files with other texts, or without them, and afterwards with their own again."""
    before = {file: file.read_text() if file.is_file() else None for file in texts}
    try:
        put(texts)
        yield
    finally:
        put(before)


def put(texts):
    for file, text in texts.items():
        if text is None:
            file.unlink(missing_ok=True)
        else:
            file.parent.mkdir(parents=True, exist_ok=True)
            file.write_text(text)


# A top-level declaration that is no definition: a fact, or a law that facts may use.
FACT = re.compile(r'^(?:pub )?(?!(?:abbrev|unfoldable|record|data|module|use|infix\w*)\s)([^\s(){}]+) :', re.M)


def groups_of(text):
    """The top-level parts of a file of specs: what is indented belongs to the part before it."""
    groups = []
    for block in text.split('\n\n'):
        if groups and block.startswith(' '):
            groups[-1] += '\n\n' + block
        else:
            groups.append(block)
    return groups


def alone(text, fact):
    """A file of facts with no other fact than this one, and with what that uses: the definitions, and the laws that are named."""
    groups = groups_of(text)
    while True:
        words = [set(re.split(r'[\s(){},]+', group)) for group in groups]
        kept_groups = []
        for at, group in enumerate(groups):
            found = FACT.search(group)
            others = (of for other, of in enumerate(words) if other != at)
            if not found or found[1] == fact or any(found[1] in of for of in others):
                kept_groups.append(group)
        if len(kept_groups) == len(groups):
            return '\n\n'.join(groups)
        groups = kept_groups


# ---- Copies.

def copied(space):
    """A copy of the crates and of what is proved of them."""
    copy = pathlib.Path(tempfile.mkdtemp(dir=space))
    ignored = shutil.ignore_patterns('incremental')
    shutil.copytree(ROOT / 'crates', copy / 'crates', ignore=ignored, copy_function=linked)
    shutil.copy(ROOT / 'crates.txt', copy)
    return copy


def each(work, jobs):
    """What work(copy, job) gives for each job; as many at a time as RT_JOBS says, each in a copy that nobody else uses."""
    with tempfile.TemporaryDirectory() as space:
        copies = queue.Queue()
        for _ in range(min(workers(), len(jobs))):
            copies.put(copied(space))

        def in_a_copy(job):
            copy = copies.get()
            try:
                return work(copy, job)
            finally:
                copies.put(copy)

        with concurrent.futures.ThreadPoolExecutor(workers()) as pool:
            return list(pool.map(in_a_copy, jobs))
