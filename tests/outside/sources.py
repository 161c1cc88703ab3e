"""From which address of a host `bac ask` asks:
    unshare -n -m python3 tests/outside/sources.py PROGRAM
Needs root and iproute2. It makes interfaces in the network namespace that it is run in, and another host behind one of them. A list whose devices need two
addresses is refused, and rounds that began without a route go on within 40 seconds once there is one. Prints what is wrong; the last line is `N checks, M wrong`."""
import subprocess
import sys
import tempfile
import time

PROGRAM = sys.argv[1]
HOST = 'bac-sources'


def sh(words):
    subprocess.run(words.split(), check=True)


def interface(name, address):
    """An interface of this host with an address, or with none yet, and its other end."""
    sh(f'ip link add {name} type veth peer name {name}p')
    if address:
        sh(f'ip addr add {address}/24 dev {name}')
    sh(f'ip link set {name} up')
    sh(f'ip link set {name}p up')


def ask(*words):
    ran = subprocess.run([PROGRAM, 'ask', '--timeout', '1', *words], capture_output=True, text=True)
    return ran.returncode, ran.stdout, ran.stderr


def asked_of(folder, *devices):
    with open(f'{folder}/list', 'w', encoding='utf-8') as it:
        it.writelines(f'@{device} read 0:5 85\n' for device in devices)
    status, out, err = ask('--lines', f'{folder}/list')
    return status, out, err.replace(f'{folder}/', '')


def rounds():
    """What seven rounds print, eight seconds apart, where the route comes three seconds after they begin."""
    interface('later', None)
    sh(f'ip link set laterp netns {HOST}')
    for words in ('link set lo up', 'addr add 10.7.0.9/24 dev laterp', 'link set laterp up'):
        sh(f'ip netns exec {HOST} ip {words}')
    server = subprocess.Popen(['ip', 'netns', 'exec', HOST, PROGRAM, 'serve', '--at', '10.7.0.9'], stderr=subprocess.DEVNULL)
    asks = [PROGRAM, 'ask', '--to', '10.7.0.9', '--timeout', '1', '--every', '8', '--times', '7', '--text', 'read', '0:5', '85']
    client = subprocess.Popen(asks, stdout=subprocess.PIPE, stderr=subprocess.DEVNULL, text=True)
    time.sleep(3)
    sh('ip addr add 10.7.0.5/24 dev later')
    out = client.communicate()[0].splitlines()
    server.kill()
    return out


def main():
    sh('ip link set lo up')
    interface('one', '10.0.0.5')
    interface('two', '10.1.0.5')
    sh(f'ip netns add {HOST}')
    apart = 'is asked from {}, but the device of line 1 from {}: put them in separate lists\n'
    with tempfile.TemporaryDirectory() as folder:
        checks = [
            (asked_of(folder, '10.0.0.9', '10.1.0.9'), (2, '', 'list: line 2: 10.1.0.9:47808 ' + apart.format('10.1.0.5', '10.0.0.5'))),
            (asked_of(folder, '127.0.0.1', '10.0.0.9'), (2, '', 'list: line 2: 10.0.0.9:47808 ' + apart.format('10.0.0.5', '127.0.0.1'))),
            (asked_of(folder, '10.0.0.9', '10.9.0.9'), (1, '1: no ending\n2: no ending\n', '10.9.0.9:47808: Network is unreachable (os error 101)\n')),
        ]
    found = rounds()
    checks.append((found[:1] + found[-2:], ['no ending', 'answered real 72.3', 'answered real 72.3']))
    sh(f'ip netns del {HOST}')
    wrong = [it for it in checks if it[0] != it[1]]
    for got, wanted in wrong:
        print(f'got {got!r}, not {wanted!r}')
    print(f'{len(checks)} checks, {len(wrong)} wrong')
    return 1 if wrong else 0


sys.exit(main())
