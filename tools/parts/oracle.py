"""The oracle: the published Rust behind the tracer's input and listing, built from tools/oracle and a folder of the Rust.

In the folder of a built oracle stand
    tracer          additions wrap, as in a release build of the Rust: the judge
    tracer-checked  panics where a debug build of the Rust panics
    build           what both were compiled from; in build/rust the Rust
Each published file that is used must have its sum in tools/oracle/published.sha256, and is compiled as it is; only in the
copy of x552.rs visibility is changed. What is wrong is said on standard error, and the exit status is 2.
"""
import fcntl, hashlib, os, re, shutil, subprocess
from pathlib import Path

from . import ROOT, give_up

SOURCE, BUILT = ROOT / 'tools/oracle', ROOT / 'target/oracle'
VARIABLE, USUAL = 'MANSRUOY_RUST', ROOT.parent / 'shared/docs/src'
UNCHECKED = ['-C', 'overflow-checks=off', '-C', 'debug-assertions=off']
CHECKED = ['-C', 'overflow-checks=on', '-C', 'debug-assertions=on']
PROGRAMS = {'tracer': UNCHECKED, 'tracer-checked': CHECKED}


# ---- The options of the tools ----

def rust_option(ask, **how):
    usual = f'what the variable {VARIABLE} names, or ../shared/docs/src beside the repository'
    ask.add_argument('--rust', type=Path, metavar='FOLDER', **how, help=f'folder of the published Rust, instead of {usual}')


def options(ask, **how):
    """Adds --rust, in another way where `how` says so, and --oracle."""
    rust_option(ask, **how)
    ask.add_argument('--oracle', type=Path, metavar='FOLDER', help='folder of a built oracle, used as it is, instead of target/oracle')


def rust_folder(options):
    return Path(options.rust or os.environ.get(VARIABLE) or USUAL)


def folder(options):
    """The oracle's folder, built where it has to be."""
    if not options.oracle:
        return build(rust_folder(options), BUILT)
    if not os.access(options.oracle / 'tracer', os.X_OK):
        give_up(f'no oracle in {options.oracle}: there is no program `tracer`')
    return options.oracle.absolute()


def is_named(options):
    """Does anything say where the oracle or the Rust is?"""
    return bool(options.oracle or options.rust or os.environ.get(VARIABLE)) or USUAL.is_dir()


# ---- The published files ----

def unchanged(rust):
    """The text of each published file that is used, by its name."""
    if not rust.is_dir():
        give_up(f'no folder {rust} with the published Rust: name it with --rust or the variable {VARIABLE}')
    files, wrong = {}, []
    for line in (SOURCE / 'published.sha256').read_text().splitlines():
        wanted, name = line.split()
        files[name] = (rust / name).read_bytes() if (rust / name).is_file() else None
        if files[name] is None:
            wrong.append(f'{rust / name} is missing')
        elif hashlib.sha256(files[name]).hexdigest() != wanted:
            wrong.append(f'{rust / name} is not as it was published: its SHA-256 sum is not that of tools/oracle/published.sha256')
    if wrong:
        give_up('; '.join(wrong))
    return files


def without_visibility(text):
    return re.sub(r'\bpub(\(super\))? ', '', text)


def opened(text):
    """x552.rs with what the oracle uses of it visible: `pub` instead of `pub(super)`, and before all fields of `Watch`."""
    def fields(watch):
        return watch[1] + ', '.join('pub ' + field.removeprefix('pub ') for field in watch[2].split(', ')) + watch[3]
    shown, count = re.subn(r'(?m)^(pub struct Watch \{ )(.*)( \})$', fields, text.replace('pub(super) ', 'pub '))
    if count != 1 or without_visibility(shown) != without_visibility(text):
        give_up('x552.rs: more than visibility would be changed, or `Watch` was not found')
    return shown


# ---- The build ----

def made_of():
    """A sum over all that the oracle is made of: this folder's files, among them the sums of the published ones."""
    digest = hashlib.sha256()
    for path in sorted([*SOURCE.rglob('*.rs'), SOURCE / 'published.sha256', Path(__file__)]):
        digest.update(f'{path.relative_to(ROOT)} {path.stat().st_size}\n'.encode() + path.read_bytes())
    return digest.hexdigest()


def lay_out(files, work):
    """What is compiled: the adapter, and in `rust` the published files and the stubs."""
    shutil.rmtree(work, ignore_errors=True)
    shutil.copytree(SOURCE / 'src', work)
    shutil.copytree(SOURCE / 'stubs', work / 'rust')
    for name, text in files.items():
        (work / 'rust' / name).write_bytes(opened(text.decode()).encode() if name == 'x552.rs' else text)


def compile_all(work, built):
    if not shutil.which('rustc'):
        give_up('no rustc, from which the oracle is built: install it, or name the folder of a built oracle with --oracle')
    print('building the oracle', flush=True)
    # No path of the machine goes into the programs.
    common = ['rustc', '--edition', '2021', '-O', '-C', 'strip=symbols', '--remap-path-prefix', f'{work}=.']
    running = [subprocess.Popen([*common, *checks, '--crate-name', name.replace('-', '_'), '-o', built / name, 'main.rs'], cwd=work)
               for name, checks in PROGRAMS.items()]
    if any([rustc.wait() for rustc in running]):
        give_up('the oracle did not build')


def build(rust, built):
    """Builds the oracle where it is missing or made of something else than today's files; its folder."""
    files, built = unchanged(rust), built.absolute()
    built.mkdir(parents=True, exist_ok=True)
    with open(built / 'made-of', 'a+') as stamp:
        fcntl.flock(stamp, fcntl.LOCK_EX)  # where two tools need it, one builds it
        stamp.seek(0)
        if stamp.read() != made_of() or not all((built / name).exists() for name in PROGRAMS):
            stamp.truncate(0)
            lay_out(files, built / 'build')
            compile_all(built / 'build', built)
            stamp.write(made_of())
    return built
