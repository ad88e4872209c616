#!/usr/bin/env python3
"""Eight threads work in three projects, at most three of them at once. Each steps aside once for something that it waits for."""

import sys
import threading

import wakhurmi

WORKERS, MOST, PROJECTS = 8, 3, 3


def work(service: wakhurmi.Service, worker: int) -> None:
    # A worker of project 2 needs project 0 too, and gets both at once.
    project = worker % PROJECTS
    projects = [0, 2] if project == 2 else [project]
    with service.taking(worker, *projects):
        # .. work on the projects ..
        with service.blocking(worker):
            pass  # .. wait for a file, a socket or another program, with no lease and no lock ..
        # .. work on ..


def main() -> None:
    # A plan's run has the all-projects lock behind those of its projects. It isn't taken here, but counts where a plan checks the history.
    with wakhurmi.Service(WORKERS, MOST, PROJECTS + 1) as service:
        threads = [threading.Thread(target=work, args=(service, worker)) for worker in range(WORKERS)]
        for thread in threads:
            thread.start()
        for thread in threads:
            thread.join()
        service.finish()
        sys.stdout.buffer.writelines(service.history())


if __name__ == "__main__":
    main()
