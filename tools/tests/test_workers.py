"""Work shared by processes, by a scheduler's workers, and in shards: the same outcome, whoever is killed meanwhile."""

import gc
import os
import random
import signal
import socket
import threading
import time

import pytest
from conftest import TOP, octets_of, random_frame, vectors

from mizgaure import InputError, ProgramError, Radio, Rate, read_htcp
from mizgaure.detectors import Detector
from mizgaure.shards import renumbered, shards, texts
from mizgaure.sweep import Setting, sweep
from mizgaure.workers import Workers


def squared(number):
    return number * number


def killed_once(task):
    """Ends its own process the first time that it comes to 7."""
    number, marker = task
    if number == 7 and not os.path.exists(marker):
        open(marker, "w").close()
        os.kill(os.getpid(), signal.SIGKILL)
    return number * number


def always_killed(_):
    os.kill(os.getpid(), signal.SIGKILL)


def refused(number):
    raise InputError(f"no {number}")


@pytest.mark.parametrize("processes", [1, 3])
def test_outcomes_come_in_the_order_of_tasks(processes):
    assert list(Workers(processes).run(squared, range(40))) == [(n, n * n) for n in range(40)]
    assert list(Workers(processes).run(squared, [])) == []
    with pytest.raises(InputError, match="no 3"):
        list(Workers(processes).run(refused, [3]))


def test_a_process_that_is_killed_costs_nothing(tmp_path):
    tasks = [(n, str(tmp_path / "marker")) for n in range(30)]
    assert [outcome for _, outcome in Workers(3).run(killed_once, tasks)] == [n * n for n in range(30)]
    assert (tmp_path / "marker").exists()
    with pytest.raises(ProgramError, match="ended 3 times"):
        list(Workers(2).run(always_killed, range(4)))


def test_no_more_tasks_are_taken_than_are_needed():
    taken = []

    def tasks():
        for n in range(1000):
            taken.append(n)
            yield n

    run = Workers(2).run(squared, tasks())
    assert next(run) == (0, 0) and len(taken) == 8
    other = Workers(2).run(squared, range(50))
    assert next(other) == (0, 0)
    run.close()  # ends its own processes, and those of nobody else
    assert list(other) == [(n, n * n) for n in range(1, 50)]


def test_there_has_to_be_a_scheduler(monkeypatch):
    pytest.importorskip("distributed")
    monkeypatch.setattr("mizgaure.workers.CONNECT_SECONDS", 1)
    begin = time.monotonic()
    with socket.socket() as held:  # a port on which nothing listens
        held.bind(("127.0.0.1", 0))
        place = f"127.0.0.1:{held.getsockname()[1]}"
        for address in (f"tcp://{place}", place):
            with pytest.raises(InputError, match=f"there is no scheduler of dask.distributed at {address}"):
                list(Workers(scheduler=address).run(squared, range(4)))
    gc.collect()  # nothing that is dropped waits for a scheduler that isn't there
    assert time.monotonic() - begin < 15


def test_without_dask_there_is_a_sentence(monkeypatch):
    monkeypatch.setitem(__import__("sys").modules, "distributed", None)
    with pytest.raises(InputError, match="--scheduler needs dask.distributed; on Debian: apt install python3-distributed"):
        list(Workers(scheduler="tcp://127.0.0.1:9").run(squared, range(4)))


# shards

def whole_text(radio: Radio, command: str, capture: bytes) -> bytes:
    with radio.text(command, capture) as output:
        return output.read()


def joined(radio: Radio, command: str, capture: bytes, parts: int = 1, size: int = 6000) -> bytes:
    return b"".join(piece for k in range(1, parts + 1) for piece in texts(command, capture, Workers(1), radio.path, (k, parts), size))


def captures():
    """A capture of several frames of each version, and with erased subcarriers."""
    some = [frame for path in [p.values[0] for p in vectors(".htcp")][::9] for frame in read_htcp(path)]
    yield octets_of(some * 2, version=2)
    yield octets_of([frame for frame in some * 2 if not frame.erased.any()], version=1)
    yield octets_of([])


@pytest.mark.parametrize("command", ["detect", "rx"])
def test_shards_give_the_text_of_one_run(radio, command):
    for capture in captures():
        whole = whole_text(radio, command, capture)
        assert len(list(shards(capture, 6000))) > 1 or len(capture) < 10
        assert joined(radio, command, capture) == whole
        assert joined(radio, command, capture, parts=3) == whole
        assert joined(radio, command, capture, size=10**9) == whole


def test_a_run_that_is_killed_is_done_again(radio, tmp_path):
    killed = tmp_path / "radio"
    killed.write_text(f'#!/bin/sh\nmkdir "{tmp_path}/once" 2>/dev/null && kill -9 $$\nexec "{radio.path}" "$@"\n')
    killed.chmod(0o755)
    capture = octets_of([random_frame(Rate(20, 0), 5, seed=n) for n in range(6)])
    assert b"".join(texts("detect", capture, Workers(3), str(killed), size=1)) == whole_text(radio, "detect", capture)
    (tmp_path / "radio").write_text("#!/bin/sh\nkill -9 $$\n")
    with pytest.raises(ProgramError, match="ended by signal 9"):
        list(texts("detect", capture, Workers(3), str(killed), size=1))


def test_shards_of_what_is_no_capture(radio):
    """Cut anywhere, with octets behind the end, and with a field at fault."""
    picked = random.Random(1)
    capture = octets_of([random_frame(Rate(20, mcs), 20, seed=mcs) for mcs in (0, 9, 3)] * 2, version=2)
    spoiled = [b"", b"HTC", capture[:4] + b"\3" + capture[5:], capture + b"xyz", capture[:5] + b"\0\0" + capture[7:]]
    spoiled += [capture[: picked.randrange(len(capture))] for _ in range(6)]
    for place in (7, 8, 9, 11, 12, capture.index(b"HTCP") + 7 + 100):
        spoiled.append(capture[:place] + b"\xee" + capture[place + 1 :])
    for octets in spoiled:
        whole = whole_text(radio, "detect", octets)
        assert joined(radio, "detect", octets) == whole and joined(radio, "detect", octets, parts=4) == whole


def test_numbers_of_frames_are_put_right():
    text = b"job 0 0 0 5 1 0\njob 0 0 1 1 0 0\njob 1 0 0 7 1 0\njob 2 1 0 job\n"
    assert renumbered(text, b"job", 0) == text and renumbered(b"", b"job", 3) == b""
    assert renumbered(text, b"job", 9) == b"job 9 0 0 5 1 0\njob 9 0 1 1 0 0\njob 10 0 0 7 1 0\njob 11 1 0 job\n"
    many = b"".join(b"frame %d x\n" % n for n in range(30))
    assert renumbered(many, b"frame", 5) == b"".join(b"frame %d x\n" % n for n in range(5, 35))


def test_parts_are_some_of_them():
    for part in ((0, 2), (3, 2)):
        with pytest.raises(InputError, match="isn't one of them"):
            list(texts("detect", b"", Workers(1), part=part))
    with pytest.raises(InputError, match="tx isn't one of detect, rx"):
        list(texts("tx", b"", Workers(1)))


def test_a_schedulers_workers_give_the_same_also_when_one_is_killed(radio, monkeypatch, tmp_path):
    """Two worker processes on this machine; one is killed while the work is under way, and another one comes."""
    distributed = pytest.importorskip("distributed")
    monkeypatch.setenv("PYTHONPATH", str(TOP / "tools" / "src"))
    capture = octets_of([random_frame(Rate(20, 9), 60, seed=n) for n in range(24)])
    whole = whole_text(radio, "detect", capture)
    setting = Setting(mcs=0, length=10, snr=(5.0, 15.0), frames=20)
    detectors = (Detector("zf", "zero-forcing"),)
    alone = sweep(setting, radio, 1, detectors=detectors)
    with distributed.LocalCluster(n_workers=2, threads_per_worker=1, dashboard_address=":0", local_directory=str(tmp_path), silence_logs=50) as cluster:
        address = cluster.scheduler_address
        workers = [worker.process.pid for worker in cluster.workers.values()]
        pieces = []
        for piece in texts("detect", capture, Workers(scheduler=address), radio.path, size=1):
            if not pieces:
                threading.Thread(target=os.kill, args=(workers[0], signal.SIGKILL)).start()
            pieces.append(piece)
        assert b"".join(pieces) == whole and len(pieces) == 24
        end = time.monotonic() + 20
        while os.path.exists(f"/proc/{workers[0]}/cmdline") and open(f"/proc/{workers[0]}/cmdline").read() and time.monotonic() < end:
            time.sleep(0.1)
        assert sweep(setting, path=radio.path, scheduler=address, detectors=detectors) == alone
