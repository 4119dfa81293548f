"""Boots a guest in QEMU, whose memory is a file, and gives that file when the guest has ended."""
import contextlib
import os
import subprocess
import tempfile

MEMORY = 1024                               # in MiB
SECONDS = 300


class Stopped(Exception):
    """The guest did not end well."""


@contextlib.contextmanager
def memory_after(guest, module, cpu='max'):
    """Runs the guest with the module, and gives its memory as a file."""
    with tempfile.TemporaryDirectory(prefix='limzhur-machine') as folder:
        given, memory = os.path.join(folder, 'module'), os.path.join(folder, 'memory')
        with open(given, 'wb') as file:
            file.write(module)
        with open(memory, 'wb') as file:
            file.truncate(MEMORY << 20)
        status = subprocess.run(
            ['timeout', str(SECONDS), 'qemu-system-x86_64', '-accel', 'tcg', '-cpu', cpu, '-m', str(MEMORY),
             '-object', f'memory-backend-file,id=memory,size={MEMORY}M,mem-path={memory},share=on',
             '-machine', 'pc,memory-backend=memory', '-nodefaults', '-display', 'none', '-serial', 'none', '-monitor', 'none',
             '-no-reboot', '-device', 'isa-debug-exit,iobase=0xf4,iosize=4', '-kernel', guest, '-initrd', given],
            stdin=subprocess.DEVNULL).returncode
        # The device ends QEMU with 2 * status + 1.
        if status != 1:
            raise Stopped(f'the guest {os.path.basename(guest)} ended with status {status}, and not 1')
        with open(memory, 'rb') as file:
            yield file
