#!/usr/bin/env python3
"""Runs the job of docs/GUIDE.md about a service of systemd as it stands there: unit.py PROGRAM [by-hand]

As root it lays an overlay over the files of this machine, installs into it with `make install`, and boots systemd there, in namespaces of its own: nothing of this
machine changes, and no network of it is reached. A second network namespace, with a link to the first, is the other host. Then it does what the job says: the
commands and the words of `systemctl edit` are those of the document. It edits the document that is served, breaks it, kills the server, stops it, and boots again.

Where that cannot be (it says why), or with `by-hand`, it installs below a folder, lets `systemd-analyze` verify the unit and rate its exposure, and does itself what the unit says:
starts ExecStart, as another user where it may, and starts it again as Restart, RestartSec and RestartPreventExitStatus say. Where there is no PROGRAM, it takes
bac-unproved beside it. The last line says what was done, and how much of it was wrong."""

import os
import re
import shlex
import shutil
import signal
import subprocess
import sys
sys.dont_write_bytecode = True  # no __pycache__ beside the sources

import tempfile
import time
from pathlib import Path

from processes import free_port

TOP = Path(__file__).resolve().parents[2]
PREFIX, UNIT = '/usr/local', 'lib/systemd/system/bac.service'
SYSTEMD = '/lib/systemd/systemd'
NEEDED = ('unshare', 'nsenter', 'setpriv', 'mount', 'pivot_root', 'ip', 'make', 'systemctl')
LOST = '-sys_boot,-sys_module,-sys_rawio,-sys_time,-syslog,-mknod'  # what its systemd may not do
HOST, WAIT = '192.168.1.30/24', 65  # the other host; how long a server that starts again waits
DYNAMIC = range(61184, 65520)  # users that systemd makes for a unit
SECONDS = 60  # for whatever is waited for, on a busy machine
OUTDOOR = 'read analog-input:1 present-value'
SETPOINT = 'read analog-value:1 present-value'
MOST_EXPOSURE = 1.5  # of 10, as `systemd-analyze security` counts it
BOOT = r'''
cd "$1"
mount -t proc proc proc
mount -o bind proc/sys proc/sys
mount -o remount,bind,ro proc/sys
mount -t sysfs -o ro sysfs sys
mount -t cgroup2 cgroup2 sys/fs/cgroup
mount -t tmpfs -o mode=755 tmpfs run
mount -t tmpfs tmpfs tmp
mount -t tmpfs -o mode=755 tmpfs dev
for name in null zero full random urandom tty; do
    : > dev/$name
    mount -o bind /dev/$name dev/$name
done
mkdir dev/shm dev/pts
mount -t tmpfs tmpfs dev/shm
mount -t devpts -o newinstance,ptmxmode=0666 devpts dev/pts
ln -s pts/ptmx dev/ptmx
ip link set lo up
until ip link show plant > /dev/null 2>&1; do sleep 0.05; done
ip address add "$2/24" dev plant
ip link set plant up
mkdir -p mnt/old
pivot_root . mnt/old
umount -l /mnt/old
exec env -i container=unit.py PATH=/usr/local/sbin:/usr/local/bin:/usr/sbin:/usr/bin:/sbin:/bin setpriv --bounding-set="$3" "$4" --system --unit=multi-user.target
'''


class Job:
    """The job, as the document has it: the words that the unit runs, the lines for `systemctl edit`, and the commands."""

    def __init__(self):
        text = (TOP / 'docs/GUIDE.md').read_text()
        section = re.search(r'\n## \d+\. Run a device as a service\n(.*?)\n## ', text, re.S)[1]
        self.words = shlex.split(re.search(r'The unit runs `bac ([^`]*)`', section)[1])
        self.edit, commands = re.findall(r'\n```\n(.*?\n)```', section, re.S)
        self.commands = commands.splitlines()
        self.at = re.search(r'--at (\S+)', self.edit)[1]
        self.install = re.search(r'`(make install [^`]*)`', section)[1]


class Told:
    """What was done, and what of it was wrong."""

    def __init__(self):
        self.right, self.wrong, self.asks, self.boots = 0, 0, 0, 0

    def check(self, what, holds, more=''):
        self.right += bool(holds)
        self.wrong += not holds
        if not holds:
            print(f'WRONG: {what} {more}', flush=True)


def waited(holds, seconds=SECONDS):
    """What that gives as soon as it gives anything but nothing; otherwise the last nothing."""
    end = time.monotonic() + seconds
    while True:
        found = holds()
        if found or time.monotonic() > end:
            return found
        time.sleep(0.1)


def output(words, errors=subprocess.STDOUT, **more):
    """The status of a command, and its output, with what it says on standard error."""
    done = subprocess.run(words, stdin=subprocess.DEVNULL, stdout=subprocess.PIPE, stderr=errors, text=True, timeout=2 * SECONDS, **more)
    return done.returncode, done.stdout


def on_terminal(words):
    """The status of a command that wants a terminal, and what it prints there."""
    own, given = os.openpty()
    status = subprocess.run(words, stdin=given, stdout=given, stderr=given, timeout=SECONDS).returncode
    os.write(given, b'.\n')
    said = os.read(own, 65536).decode()
    os.close(own)
    os.close(given)
    return status, said


def exposure(unit):
    """How exposed a unit's process is, of 10, as systemd counts it."""
    said = output(['systemd-analyze', 'security', '--offline=true', str(unit)])[1]
    return float(re.search(r'exposure level for \S+: ([0-9.]+)', said)[1])


def ended(words):
    """How an ask ends."""
    return output(words, errors=subprocess.DEVNULL)[1].strip()


def installed(program, told, install, stage='', **places):
    """Installs the program, twice: an edited document stays."""
    words = [*shlex.split(install), f'PROGRAM={program}', *(f'{name}={place}' for name, place in places.items())]
    document = Path(f'{stage}{places.get("SYSCONFDIR", "/etc")}/bac/plant.toml')
    status, said = output(words, cwd=TOP)
    if status:
        sys.exit(f'{" ".join(words)}: {said}')
    told.check('make install', document.exists(), said)
    document.write_text(document.read_text() + '# edited\n')
    status, said = output(words, cwd=TOP)
    told.check('make install again', status == 0 and document.read_text().endswith('# edited\n'), said)


def swapped(path, old, new):
    """Puts a text in the place of another one in a file."""
    text = path.read_text()
    assert old in text, f'{path}: no {old}'
    path.write_text(text.replace(old, new, 1))


# ---- a machine of namespaces, in which systemd runs

def child_of(process):
    """The first child of a process, if it has one."""
    words = Path(f'/proc/{process}/task/{process}/children').read_text().split()
    return int(words[0]) if words else None


def net_of(process):
    """The network namespace of a process; none where it has ended."""
    try:
        return os.readlink(f'/proc/{process}/ns/net')
    except OSError:
        return None


class Machine:
    """A systemd that was booted on a root. Its network has a link to the one of this process."""

    def __init__(self, root, at, group):
        self.root = root
        group.mkdir()
        words = ['unshare', '--mount', '--pid', '--net', '--ipc', '--uts', '--cgroup', '--fork', '--kill-child', 'sh', '-ec', BOOT, 'boot', root, at, LOST, SYSTEMD]
        streams = {'stdin': subprocess.DEVNULL, 'stdout': subprocess.DEVNULL, 'stderr': open(f'{root}/../said', 'w')}
        self.process = subprocess.Popen(words, preexec_fn=lambda: (group / 'cgroup.procs').write_text(str(os.getpid())), **streams)
        waited(lambda: net_of(self.process.pid) != net_of('self'))
        for words in (['add', 'host', 'type', 'veth', 'peer', 'name', 'plant', 'netns', str(self.process.pid)], ['set', 'host', 'up']):
            # the link to an earlier machine goes some time after that
            waited(lambda words=words: self.process.poll() is not None or output(['ip', 'link', *words])[0] == 0)
        output(['ip', 'address', 'add', HOST, 'dev', 'host'])
        self.first = waited(lambda: self.process.poll() is not None or child_of(self.process.pid))

    def words(self, words):
        return ['nsenter', '-t', str(self.first), '-m', '-p', '-n', '-i', '-u', '-C', 'env', '-i', f'PATH={os.environ["PATH"]}', 'SYSTEMD_PAGER=', *words]

    def run(self, *words):
        return output(self.words(words))

    def show(self, name):
        return self.run('systemctl', 'show', '--value', '-p', name, 'bac')[1].strip()

    def is_booted(self):
        return self.process.poll() is None and waited(lambda: self.run('systemctl', 'is-system-running')[1].strip() in ('running', 'degraded'))

    def server(self):
        """The process of the unit, by its number there, and the words and the user that it runs with."""
        number = self.show('MainPID')
        words = self.run('cat', f'/proc/{number}/cmdline')[1].split('\0')[:-1]
        return number, words, int(self.run('stat', '-c', '%u', f'/proc/{number}')[1])

    def serves(self, other_than=''):
        """Waits for the unit's process to listen; answers its number. It is not that one."""
        def found():
            number = self.show('MainPID')
            return number not in ('0', other_than, '') and self.show('ActiveState') == 'active' and self.run('ss', '-Hlun', 'sport = :47808')[1] and number
        return waited(found)

    def off(self):
        self.run('systemctl', 'poweroff')
        try:
            self.process.wait(SECONDS)
        except subprocess.TimeoutExpired:
            self.process.kill()
            self.process.wait()


class Asking:
    """Asks, at the machine itself and from the other host."""

    def __init__(self, machine, program, at, told):
        self.machine, self.program, self.at, self.told = machine, program, at, told

    def here(self, words):
        self.told.asks += 1
        return ended(self.machine.words(['bac', 'ask', '--port', '47808', '--text', '--timeout', '10', *words.split()]))

    def there(self, words, timeout=10):
        self.told.asks += 1
        return ended([self.program, 'ask', '--to', self.at, '--text', '--timeout', str(timeout), *words.split()])

    def check(self, what, came, wanted):
        self.told.check(what, came == wanted, f'{came!r}, wanted {wanted!r}')


class Following:
    """The job's command that follows the journal, and what it has printed."""

    def __init__(self, machine, command, path):
        self.path = path
        self.process = subprocess.Popen(machine.words(shlex.split(command)), stdin=subprocess.DEVNULL, stdout=open(path, 'w'), stderr=subprocess.STDOUT)

    def has(self, text):
        return waited(lambda: text in self.path.read_text(), 10)

    def count(self, text):
        return self.path.read_text().count(text)

    def end(self):
        self.process.terminate()
        self.process.wait()


def commands_of(job, machine, told, folder):
    """Runs the commands of the job, which begin the server anew, and follows the journal with the last one."""
    before = machine.show('MainPID')
    for command in job.commands[:-1]:
        status, said = machine.run(*shlex.split(command))
        told.check(command, status == 0, said)
    told.check('it listens', machine.serves(before))
    return Following(machine, job.commands[-1], folder / f'followed{told.right}')


def as_installed(job, machine, asking, told, folder):
    """The unit as it was installed: at 127.0.0.1, as its own user, with a log of requests; a document that is edited, and one with a fault."""
    status, said = machine.run('systemd-analyze', 'verify', f'{PREFIX}/{UNIT}')
    told.check('systemd-analyze verify', status == 0 and not said, said)
    told.check('its exposure', exposure(Path(machine.root, PREFIX[1:], UNIT)) <= MOST_EXPOSURE)
    following = commands_of(job, machine, told, folder)
    number, words, user = machine.server()
    told.check('its words', words == [f'{PREFIX}/bin/bac', *job.words], words)
    told.check('its own user', user in DYNAMIC, user)
    told.check('enabled', machine.run('systemctl', 'is-enabled', 'bac')[1] == 'enabled\n')
    asking.check('a read', asking.here(OUTDOOR), 'answered real 4.5')
    asking.check('a write in the first 65 s', asking.here('write analog-value:1 present-value real:22.0'), 'aborted other (0)')
    told.check('the read is logged', following.has('read analog-input:1 present-value: answered real 4.5'))
    told.check('the write is not', following.count('write analog-value:1') == 0)
    asking.check('a read from the other host', asking.there(OUTDOOR, 3), 'no ending')
    document = Path(machine.root, 'etc/bac/plant.toml')
    swapped(document, 'real = 4.5', 'real = 5.25')
    machine.run('systemctl', 'restart', 'bac')
    told.check('it listens again', machine.serves(number))
    asking.check('a read of what was edited', asking.here(OUTDOOR), 'answered real 5.25')
    swapped(document, 'real = 5.25', 'real = "5.25"')
    machine.run('systemctl', 'restart', 'bac')
    told.check('a fault in the document', waited(lambda: machine.show('ActiveState') == 'failed'))
    told.check('is named', following.has('analog-input 1): present-value'), following.path.read_text())
    time.sleep(3)
    told.check('and not tried again', machine.show('ActiveState') == 'failed' and machine.show('ExecMainStatus') == '2' and machine.show('NRestarts') == '0')
    swapped(document, 'real = "5.25"', 'real = 5.25')
    following.end()


def as_edited(job, machine, asking, told, folder):
    """The words of `systemctl edit`: it is asked from the other host, and keeps what is written when it is killed."""
    editor = Path(machine.root, 'usr/bin/unit-editor')
    editor.write_text(f"#!/bin/sh\nfor file; do :; done\ncat > \"$file\" << 'END'\n{job.edit}END\n")
    editor.chmod(0o755)
    status, said = on_terminal(machine.words(['env', 'SYSTEMD_EDITOR=/usr/bin/unit-editor', 'systemctl', 'edit', 'bac']))
    told.check('systemctl edit bac', status == 0, said)
    following = commands_of(job, machine, told, folder)
    number, words, _ = machine.server()
    told.check('the words of the edit', words == shlex.split(job.edit.rsplit('ExecStart=', 1)[1]), words)
    told.check('its first line', following.has(f'listening {job.at}:47808'))
    reads = following.count('read analog-input:1')  # of the unit as it was installed: the last lines come first
    asking.check('a read from the other host', asking.there(OUTDOOR), 'answered real 5.25')
    asking.check('a write in the first 65 s', asking.there('write analog-value:1 present-value real:22.0'), 'aborted other (0)')
    time.sleep(WAIT + 1)
    asking.check('a write', asking.there('write analog-value:1 present-value real:22.0'), 'answered written')
    told.check('the write is logged', following.has('write analog-value:1 present-value real 22.0: answered written'))
    told.check('the read is not', following.count('read analog-input:1') == reads)
    for kills in (1, 2):
        machine.run('systemctl', 'kill', '--signal=SIGKILL', 'bac')
        number = machine.serves(number)
        told.check('it runs again', number and machine.show('NRestarts') == str(kills))
        asking.check('a read of what was kept', asking.there(SETPOINT), 'answered real 22.0')
        asking.check('a write in the first 65 s', asking.there('write analog-value:1 present-value real:23.5'), 'aborted other (0)')
    time.sleep(WAIT + 1)
    asking.check('a write after 65 s', asking.there('write analog-value:1 present-value real:23.5'), 'answered written')
    following.end()


def stopped(machine, asking, told):
    status, said = machine.run('systemctl', 'stop', 'bac')
    told.check('systemctl stop bac', status == 0 and machine.show('ActiveState') == 'inactive' and machine.show('Result') == 'success', said)
    asking.check('a read of a stopped server', asking.there(OUTDOOR, 3), 'no ending')


def inside(program, folder, group):
    """In a mount and a network namespace of its own: an overlay, an installation, and two boots of it. 77: it does not boot."""
    job, told, root = Job(), Told(), folder / 'root'
    subprocess.run(['mount', '-t', 'tmpfs', '-o', 'mode=755', 'tmpfs', folder], check=True)
    for name in ('upper', 'work', 'root'):
        (folder / name).mkdir()
    if subprocess.run(['mount', '-t', 'overlay', '-o', f'lowerdir=/,upperdir={folder}/upper,workdir={folder}/work', 'overlay', root]).returncode:
        return 77
    # nothing of this machine is started there
    for path in [root / 'etc/systemd/system', root / 'etc/init.d', *root.glob('etc/rc?.d'), root / 'var/log/journal', root / 'etc/bac', root / 'var/lib/bac']:
        shutil.rmtree(path, ignore_errors=True)
    (root / 'etc/systemd/system').mkdir(parents=True)
    (root / 'etc/fstab').write_text('')
    (root / 'etc/machine-id').write_text('0123456789abcdef0123456789abcdef\n')
    subprocess.run(['ip', 'link', 'set', 'lo', 'up'], check=True)
    installed(program, told, job.install, root, DESTDIR=root)
    for what in (as_installed, as_edited, stopped, None):
        if what in (as_installed, None):
            machine = Machine(str(root), job.at, group / f'boot{told.boots}')
            asking = Asking(machine, program, job.at, told)
            told.boots += 1
            if not machine.is_booted():
                print((folder / 'said').read_text().strip())
                return 77
        if what is None:
            told.check('it listens after a boot', machine.serves())
            asking.check('a read after a boot', asking.there(SETPOINT), 'answered real 23.5')
        elif what is stopped:
            stopped(machine, asking, told)
            machine.off()
        else:
            what(job, machine, asking, told, folder)
    machine.off()
    status, said = output(['make', 'uninstall', f'PREFIX={PREFIX}', f'DESTDIR={root}'], cwd=TOP)
    gone = not any((root / name).exists() for name in (f'usr/local/{UNIT}', 'usr/local/bin/bac'))
    told.check('make uninstall', status == 0 and gone and (root / 'etc/bac/plant.toml').exists(), said)
    version = output(['systemctl', '--version'])[1].split()[1]
    print(f'unit: systemd={version} boots={told.boots} asks={told.asks} checks={told.right + told.wrong} wrong={told.wrong}')
    return 1 if told.wrong else 0


def in_namespaces(program):
    """Runs `inside` in namespaces and a group of processes of its own, and removes what that leaves."""
    mounted = next(line.split()[1] for line in Path('/proc/self/mounts').read_text().splitlines() if line.split()[2] == 'cgroup2')
    own = next(line[3:] for line in Path('/proc/self/cgroup').read_text().splitlines() if line.startswith('0::'))
    group = Path(mounted + own, f'unit-{os.getpid()}')
    group.mkdir()
    try:
        with tempfile.TemporaryDirectory() as folder:
            words = ['unshare', '--mount', '--net', sys.executable, __file__, program, 'inside', folder, group]
            return subprocess.run(words, stdin=subprocess.DEVNULL).returncode
    finally:
        for path in [*sorted(group.rglob('*/'), reverse=True), group]:
            for number in (path / 'cgroup.procs').read_text().split():
                os.kill(int(number), signal.SIGKILL)
            waited(lambda path=path: removed(path), 10)


def removed(path):
    """Removes a group of processes, once they have ended; answers whether it is gone."""
    try:
        path.rmdir()
    except OSError:
        return not path.exists()
    return True


def missing():
    """Why systemd cannot be booted here, if so."""
    if os.geteuid():
        return 'not root'
    lacking = [name for name in NEEDED if not shutil.which(name)] + [name for name in [SYSTEMD] if not Path(name).exists()]
    if lacking:
        return f'no {", ".join(lacking)}'
    if 'cgroup2' not in [line.split()[2] for line in Path('/proc/self/mounts').read_text().splitlines()]:
        return 'no cgroup2'
    status, said = output(['unshare', '--mount', '--net', '--pid', '--ipc', '--uts', '--cgroup', '--fork', 'true'])
    return said.strip() if status else None


# ---- by hand

class Supervised:
    """A server that is started again as its unit says."""

    def __init__(self, unit, words, said):
        self.unit, self.words, self.said = unit, words, said
        self.starts, self.process = 0, None
        self.start()

    def start(self):
        user = ['setpriv', '--reuid=65534', '--regid=65534', '--clear-groups'] if os.geteuid() == 0 else []
        self.process = subprocess.Popen(user + self.words, stdin=subprocess.DEVNULL, stdout=subprocess.DEVNULL, stderr=open(self.said, 'a'))
        self.starts += 1

    def go_on(self):
        """What the unit says where the server has ended: starts it again, or not; answers whether."""
        self.process.wait(SECONDS)
        if self.unit.get('Restart') != 'always' or str(self.process.returncode) in self.unit.get('RestartPreventExitStatus', '').split():
            return False
        time.sleep(float(self.unit['RestartSec']))
        self.start()
        return True

    def stop(self):
        self.process.send_signal(getattr(signal, self.unit.get('KillSignal', 'SIGTERM')))
        self.process.wait(SECONDS)


def by_hand(program, why):
    """What the unit says, without systemd, at a free port of this machine."""
    job, told, port = Job(), Told(), str(free_port())
    with tempfile.TemporaryDirectory() as at:
        folder, said = Path(at), Path(at, 'said')
        folder.chmod(0o755)
        (folder / 'var').mkdir()
        (folder / 'var').chmod(0o777)
        installed(program, told, f'make install PREFIX={at}/usr', SYSCONFDIR=f'{at}/etc')
        path, document = folder / 'usr' / UNIT, folder / 'etc/bac/plant.toml'
        if shutil.which('systemd-analyze'):
            status, said_of = output(['systemd-analyze', 'verify', '--man=no', path])
            told.check('systemd-analyze verify', status == 0 and str(path) not in said_of, said_of)
            told.check('its exposure', exposure(path) <= MOST_EXPOSURE)
        unit = dict(line.split('=', 1) for line in path.read_text().splitlines() if re.match(r'\w+=', line))

        def ask(what, words, wanted):
            told.asks += 1
            asked = [program, 'ask', '--port', port, '--text', '--timeout', '10', *words.split()]
            came = ended(asked)
            told.check(what, came == wanted, f'{came!r}, wanted {wanted!r}')

        def serve(words):
            said.write_text('')
            server = Supervised(unit, [*words, '--port', port], said)
            told.check('it listens', waited(lambda: 'listening' in said.read_text() or server.process.poll() is not None))
            return server

        words = shlex.split(unit['ExecStart'])
        told.check('its words', words[1:] == [word.replace('/etc/', f'{at}/etc/') for word in job.words], words)
        server = serve(words)
        ask('a read', OUTDOOR, 'answered real 4.5')
        ask('a write in the first 65 s', 'write analog-value:1 present-value real:22.0', 'aborted other (0)')
        told.check('the read is logged', waited(lambda: 'read analog-input:1 present-value: answered real 4.5' in said.read_text(), 10))
        swapped(document, 'real = 4.5', 'real = "5.25"')
        server.stop()
        server = serve(words)
        told.check('a fault in the document ends it', not server.go_on() and 'analog-input 1): present-value' in said.read_text(), said.read_text())
        swapped(document, 'real = "5.25"', 'real = 5.25')
        words = shlex.split(job.edit.rsplit('ExecStart=', 1)[1])
        for old, new in ((PREFIX, f'{at}/usr'), ('/etc/', f'{at}/etc/'), ('/var/lib/bac', f'{at}/var'), (job.at, '127.0.0.1')):
            words = [word.replace(old, new) if word.startswith(old) else word for word in words]
        server = serve(words)
        ask('a read of what was edited', OUTDOOR, 'answered real 5.25')
        ask('a write in the first 65 s', 'write analog-value:1 present-value real:22.0', 'aborted other (0)')
        time.sleep(WAIT + 1)
        ask('a write', 'write analog-value:1 present-value real:22.0', 'answered written')
        told.check('the write is logged', waited(lambda: 'present-value real 22.0: answered written' in said.read_text(), 10))
        server.process.kill()
        told.check('it runs again', server.go_on() and waited(lambda: said.read_text().count('listening') == 2), said.read_text())
        ask('a read of what was kept', SETPOINT, 'answered real 22.0')
        ask('a write in the first 65 s', 'write analog-value:1 present-value real:23.5', 'aborted other (0)')
        server.stop()
    print(f'unit: by hand ({why}), asks={told.asks} checks={told.right + told.wrong} wrong={told.wrong}')
    return 1 if told.wrong else 0


def main(words):
    program = Path(words[0]).resolve()
    if not program.exists():
        program = program.with_name('bac-unproved')
    if program.name == 'bac-unproved':
        program = program.parent / 'unproved/bac'  # what that script runs
    if words[1:] == ['by-hand']:
        return by_hand(str(program), 'as wanted')
    if words[1:2] == ['inside']:
        return inside(str(program), *map(Path, words[2:]))
    why = missing()
    status = 77 if why else in_namespaces(str(program))
    return by_hand(str(program), why or 'systemd does not boot') if status == 77 else status


if __name__ == '__main__':
    if len(sys.argv) < 2:
        sys.exit(__doc__)
    sys.exit(main(sys.argv[1:]))
