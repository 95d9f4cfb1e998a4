"""The engine: a cluster of Dask, local or of a scheduler that runs elsewhere, on which each part is a task of its own."""
import contextlib, importlib.util, logging, signal, sys, tempfile, time, uuid
from multiprocessing import resource_tracker
from typing import Callable, Dict, Iterator, List, Optional

import batching

from . import records, results
from .refused import FAILED, Refused

TRIES = 5  # A part on which more workers die is given up: it isn't the machine that ends them.
SILENT = 30  # Seconds without news of a part, after which the folder of parts is looked through.
HERE = '127.0.0.1:0'
SETTINGS = {'distributed.scheduler.allowed-failures': TRIES, 'distributed.scheduler.http.routes': [], 'distributed.worker.http.routes': [],
            'distributed.comm.timeouts.connect': '300s', 'distributed.comm.timeouts.tcp': '300s',
            # On a busy machine a worker that died may take as long to begin again.
            'distributed.deploy.lost-worker-timeout': '1h'}


def look_for_engine() -> None:
    if importlib.util.find_spec('distributed') is None:
        raise Refused(FAILED, 'it stands on Dask, which is missing: install the package python3-distributed')


@contextlib.contextmanager
def client_of(scheduler: Optional[str], workers: int) -> Iterator[object]:
    """A client of the scheduler at that address, or of a cluster of so many processes on this machine, which no other one reaches."""
    import dask, distributed

    logging.getLogger('distributed').setLevel(logging.CRITICAL)
    with dask.config.set({} if scheduler else SETTINGS), contextlib.ExitStack() as ends:
        if scheduler:
            yield ends.enter_context(distributed.Client(scheduler, timeout='60s'))
            return
        room = ends.enter_context(tempfile.TemporaryDirectory(prefix='catala-batch-'))
        with shielded():
            cluster = ends.enter_context(distributed.LocalCluster(
                n_workers=workers, threads_per_worker=1, dashboard_address=HERE, worker_dashboard_address=HERE, memory_limit=0,
                silence_logs=logging.CRITICAL, local_directory=room, security=secured()))
        yield ends.enter_context(distributed.Client(cluster))


@contextlib.contextmanager
def shielded() -> Iterator[None]:
    """Ctrl+C doesn't reach the processes of threads that begin here, also later ones: it ends the caller, which ends them."""
    resource_tracker.ensure_running()  # Where it is begun, it lets signals in again.
    signal.pthread_sigmask(signal.SIG_BLOCK, {signal.SIGINT})
    try:
        yield
    finally:
        signal.pthread_sigmask(signal.SIG_UNBLOCK, {signal.SIGINT})


def secured() -> Optional[object]:
    """A certificate that is drawn anew and never written, so that no other account of this machine reaches the local cluster."""
    from distributed.security import Security

    return Security.temporary() if importlib.util.find_spec('cryptography') else None


def compute(client, task: results.Task, parts: List[records.Part], told: Callable[[results.Done], None]) -> None:
    """Computes the parts, and tells of each when its files are there. A worker that dies costs the part that it had alone, which is run
    again."""
    import cloudpickle

    def work(part: Dict[str, int]) -> Dict[str, object]:
        return vars(results.compute(task, records.Part(**part)))

    # This function is sent with all that it names, since the workers have no checkout; so what is given to it and what it gives is plain.
    cloudpickle.register_pickle_by_value(batching)
    if not client.scheduler_info()['workers']:
        print('no worker is there yet: it waits for one', file=sys.stderr, flush=True)
    batch = uuid.uuid4().hex
    waiting = {client.submit(work, vars(part), pure=False, key='part-%06d-%s' % (part.number, batch)): part for part in parts}
    left = {part.number: part for part in parts}
    try:
        for ended in ends(waiting):
            for done in results.done_in(task.folder, [part for part in ended if part.number in left]).values():
                del left[done.number]
                told(done)
            if not left:
                break
    finally:
        client.cancel(list(waiting))


def ends(waiting: Dict[object, records.Part]) -> Iterator[List[records.Part]]:
    """Each part that has ended; and where the engine tells of none for so long, all of them, since with a worker that died it may have lost
    that one has. What a part gave is never asked of it, as that may be lost too: its files have it."""
    from distributed import as_completed

    ended = as_completed(list(waiting))
    while True:
        until = time.monotonic() + SILENT
        while not ended.has_ready() and time.monotonic() < until:
            time.sleep(0.02)
        if ended.has_ready():
            future = next(ended)
            if future.status != 'finished':
                future.result()  # It raises what ended the part.
            yield [waiting[future]]
            future.release()
        else:
            yield list(waiting.values())
