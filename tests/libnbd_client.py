#!/usr/bin/env python3
"""Tests by libnbd from Python, which clients.sh runs: libnbd_client.py TEST URI_OF_A_DISK URI_OF_A_READ_ONLY_DISK.

On Debian the module is in python3-libnbd. What is wanted stands in the protocol and in docs/FORMATS.md.
"""
import errno, os, sys

import nbd

MIB = 1 << 20


def connected(uri):
    client = nbd.NBD()
    client.set_strict_mode(0)  # what libnbd would refuse by itself is to come to the server
    client.connect_uri(uri)
    return client


def error_of(call, *words):
    try:
        call(*words)
    except nbd.Error as error:
        return error.errnum
    return 0


def greeting(disk, seen):
    client = connected(disk)
    assert client.get_protocol() == "newstyle-fixed"
    assert not client.get_structured_replies_negotiated() and not client.get_tls_negotiated()
    assert client.get_size() == 32 * MIB and not client.is_read_only()
    assert client.can_multi_conn() and client.can_flush() and client.can_fua() and client.can_trim() and client.can_zero()
    sizes = [client.get_block_size(it) for it in (nbd.SIZE_MINIMUM, nbd.SIZE_PREFERRED, nbd.SIZE_MAXIMUM)]
    assert sizes == [1, 4096, 32 * MIB], sizes
    client = connected(seen)
    assert client.is_read_only() and client.get_size() == MIB


def options(disk, seen):
    client, listed = nbd.NBD(), []
    client.set_opt_mode(True)
    client.connect_uri(disk)
    client.opt_list(lambda name, description: listed.append(name))
    assert listed == ["disk", "other", "seen", "large"], listed
    client.set_export_name("nothing of this name")
    assert error_of(client.opt_info) == errno.ENOENT
    client.set_export_name("seen")
    client.opt_info()
    assert client.get_size() == MIB and client.is_read_only()
    client.opt_abort()


def bytes_kept(disk, seen):
    client, sent = connected(disk), os.urandom(3 * MIB)
    client.pwrite(sent, 1000)
    client.pwrite(b"with FUA", 5, nbd.CMD_FLAG_FUA)
    client.flush()
    other = connected(disk)
    assert other.pread(len(sent), 1000) == sent and other.pread(8, 5) == b"with FUA"
    client.zero(MIB, 1000, nbd.CMD_FLAG_NO_HOLE)
    client.trim(MIB, 1000 + MIB)
    assert other.pread(3 * MIB, 1000) == bytes(2 * MIB) + sent[2 * MIB :]
    assert other.pread(0, 0) == b""


def many_under_way(disk, seen):
    client, texts, done = connected(disk), {}, []
    for i in range(200):
        texts[i] = nbd.Buffer.from_bytearray(bytearray(os.urandom(4096 + i)))
        client.aio_pwrite(texts[i], i * 8192, completion=lambda error, i=i: done.append(i) or 1)
    while client.aio_in_flight():
        client.poll(-1)
    assert sorted(done) == list(range(200))
    found = {i: nbd.Buffer(4096 + i) for i in texts}
    for i in reversed(range(200)):
        client.aio_pread(found[i], i * 8192, completion=lambda error: 1)
    while client.aio_in_flight():
        client.poll(-1)
    assert all(found[i].to_bytearray() == texts[i].to_bytearray() for i in texts)


def refusals(disk, seen):
    client, size = connected(disk), 32 * MIB
    assert error_of(client.pread, 2, size - 1) == errno.EINVAL
    assert error_of(client.pwrite, b"12", size - 1) == errno.ENOSPC
    assert error_of(client.zero, 2, size - 1) == errno.ENOSPC
    assert error_of(client.trim, 2, size - 1) == errno.EINVAL
    assert error_of(client.pread, size + 1, 0) == errno.EINVAL
    assert client.pread(1, size - 1) is not None
    client = connected(seen)
    assert [error_of(client.pwrite, b"1", 0), error_of(client.trim, 1, 0), error_of(client.zero, 1, 0)] == [errno.EPERM] * 3
    assert client.pread(3, 0) == bytes(3)


if __name__ == "__main__":
    globals()[sys.argv[1]](*sys.argv[2:])
