"""A GlusterFS volume of one brick, mounted twice, as two machines would have it. It needs no daemon of the system: the brick's process and
the two mounts are started here, with volume files of their own, and are ended by their numbers."""
import contextlib, os, pathlib, shutil, signal, socket, subprocess, time

SERVER = """\
volume posix
    type storage/posix
    option directory {room}/brick
end-volume
volume locks
    type features/locks
    subvolumes posix
end-volume
volume brick
    type performance/io-threads
    subvolumes locks
end-volume
volume server
    type protocol/server
    option transport-type socket
    option transport.address-family inet
    option transport.socket.listen-port {port}
    option transport.socket.bind-address 127.0.0.1
    option auth.addr.brick.allow *
    subvolumes brick
end-volume
"""
CLIENT = """\
volume client
    type protocol/client
    option transport-type socket
    option transport.address-family inet
    option remote-host 127.0.0.1
    option remote-port {port}
    option remote-subvolume brick
end-volume
"""
# How long the mounts may take to have each other's files, in seconds.
PATIENCE = 20


def lacks():
    """What this machine lacks for it, or nothing."""
    if not all(map(shutil.which, ("glusterfsd", "glusterfs", "umount"))):
        return "GlusterFS"
    if os.geteuid() != 0 or not os.access("/dev/fuse", os.R_OK | os.W_OK):
        return "a right to mount"
    return ""


def free_port():
    with socket.create_server(("127.0.0.1", 0)) as it:
        return it.getsockname()[1]


def end(pid_file):
    """Ends a process by the number in its file."""
    with contextlib.suppress(OSError, ValueError):
        os.kill(int(pid_file.read_text()), signal.SIGTERM)


def is_seen(mounts):
    """Whether the second mount has what the first one writes."""
    seen, until = mounts[1] / "seen", time.monotonic() + PATIENCE
    while time.monotonic() < until:
        with contextlib.suppress(OSError):
            (mounts[0] / "seen").write_text("seen")
            if all(map(os.path.ismount, mounts)) and seen.read_text() == "seen":
                return True
        time.sleep(0.1)
    return False


@contextlib.contextmanager
def two_mounts(room):
    """The folders of both mounts, or None where they do not come to be."""
    room = pathlib.Path(room)
    mounts = [room / "one", room / "two"]
    for it in (room / "brick", *mounts):
        it.mkdir()
    port = free_port()
    (room / "server.vol").write_text(SERVER.format(room=room, port=port))
    (room / "client.vol").write_text(CLIENT.format(port=port))
    started = [["glusterfsd", "-f", f"{room}/server.vol", "-p", f"{room}/server.pid", "-l", f"{room}/server.log"]]
    started += [["glusterfs", "-f", f"{room}/client.vol", "-p", f"{it}.pid", "-l", f"{it}.log", str(it)] for it in mounts]
    try:
        for words in started:
            subprocess.run(words, stdout=subprocess.DEVNULL, stderr=subprocess.DEVNULL, timeout=PATIENCE)
        yield mounts if is_seen(mounts) else None
    finally:
        for it in mounts:
            if os.path.ismount(it):
                subprocess.run(["umount", "-l", str(it)], stderr=subprocess.DEVNULL)
            end(pathlib.Path(f"{it}.pid"))
        end(room / "server.pid")
