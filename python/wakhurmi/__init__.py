"""Worker leases and project locks for the threads of a build tool, over the library libwakhurmi.so.

A service has so many workers, numbered from 0. Each is used by one thread at a time. At most so many workers have a lease at once, and a
project lock has one owner at most. Every call that changes something makes one entry of a history: it happens whole or not at all.

    import wakhurmi

    with wakhurmi.Service(workers=8, max_leases=3, locks=4) as service:
        with service.taking(0, 1, 2):           # worker 0 has a lease and the locks 1 and 2
            build()
            with service.blocking(0):           # it waits for something else, and has nothing meanwhile
                process.wait()
            build_on()
        service.finish()
        sys.stdout.buffer.writelines(service.history())

A service may have the lock of all projects, beside which no other worker owns one, or shared services in place of locks, of which each may have so
many users at once:

    with wakhurmi.Service(workers=8, max_leases=4, maxima=[2, 1]) as service:
        with service.using(0, 0, 1):            # worker 0 has a lease, and uses both services
            build()

A plan says what there is to do: tasks, each with a lock, the tasks that it comes after, and actions with so many items. A service over a plan says
to each worker what it does next, and `Plan.run` has threads do it:

    with wakhurmi.Plan(locks=2) as plan:
        compiling, linking = plan.task(lock=0), plan.task(lock=1)
        plan.after(linking, compiling)
        plan.action(compiling, items=len(SOURCES))
        plan.action(linking)

        def work(service, job):                 # in one of four threads; behind an error the item has failed, and the run stops
            if job.kind is wakhurmi.Kind.ITEM:
                compile_source(SOURCES[job.item]) if job.task == compiling else link()

        with plan.run(work, threads=4) as ended:
            print(ended.task_outcome(linking).name)

The calls are those of wakhurmi.h, which says of each what it answers, who may make it when, what it costs, and what is proved of it. That is
the library that this module calls. This module itself isn't covered by any proof. An answer other than OK is an exception here: Busy, Stopped,
TimedOut, NoMemory, BadNumber, Misused, Cycle or TooMany, all of them of the class Error. Behind an exception the worker has what it had, but where
`done_next` says otherwise. Calls let go of the interpreter, so other threads run while one waits.

A deadline is a time of time.monotonic(), so `time.monotonic() + 5` stands for five seconds from now. One that has passed doesn't wait.

Ctrl-C. Python runs the handlers of signals in the main thread, and not while that is in a call of the library. So where the main thread waits
it does so in slices of a tenth of a second, and a KeyboardInterrupt comes between two of them. Then nothing was taken: what the library gave just
as the signal came has been given back. Two things are as Python has them anywhere. An interrupt can come just before or just behind a call, so
behind one of `hand_back` or `enter` it may have been done. And one that comes just as a block of `with` is left may keep its end from being run.
In the history such an undone take stands as a take and a hand-back. Each slice is a wait of its own to those who are queued. So where many
threads want the same, the main one had better not be a worker: have it start the others, and join them. `Plan.run` does so. Of a plan's service the
main thread asks for work again and again, with naps in between, and waits for the end of a fetch or a section without hearing a signal.

A fork. In the child of one all calls of the parent's services and parts raise Misused, and `close` does nothing there. The child may open a
service of its own.

Where the library is looked for: in this package's folder; then, where the variable WAKHURMI names a folder that c/build.sh has filled, in its folder
`shared`; then where the system's loader looks. `pip install` copies it into that folder from where it is found by the first two.
"""

from ._errors import BadNumber, Busy, Cycle, Error, Misused, NoMemory, Stopped, TimedOut, TooMany
from ._jobs import Job, Kind, Outcome, Retention
from ._plans import ALL_PROJECTS, Plan, PlannedService
from ._services import Part, Service

__all__ = [
    "ALL_PROJECTS",
    "BadNumber",
    "Busy",
    "Cycle",
    "Error",
    "Job",
    "Kind",
    "Misused",
    "NoMemory",
    "Outcome",
    "Part",
    "Plan",
    "PlannedService",
    "Retention",
    "Service",
    "Stopped",
    "TimedOut",
    "TooMany",
]
__version__ = "0.1"
