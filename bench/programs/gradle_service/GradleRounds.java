import java.lang.management.ManagementFactory;
import java.util.Arrays;
import java.util.List;
import java.util.concurrent.atomic.AtomicLongArray;
import java.util.concurrent.locks.LockSupport;

import org.gradle.concurrent.ParallelismConfiguration;
import org.gradle.internal.concurrent.DefaultParallelismConfiguration;
import org.gradle.internal.concurrent.ParallelismConfigurationListener;
import org.gradle.internal.concurrent.ParallelismConfigurationManager;
import org.gradle.internal.resources.DefaultResourceLockCoordinationService;
import org.gradle.internal.resources.ResourceLock;
import org.gradle.internal.work.DefaultWorkerLeaseService;

/**
 * Rounds of Gradle's own service: threads that take a project lock and a lease, work, and give both back.
 *
 *     GradleRounds THREADS LEASES LOCKS NANOSECONDS WARMING SECONDS
 *
 * A thread's lock is that of its number, modulo LOCKS. The work is a loop until so many nanoseconds have gone by, and a sleep from half a millisecond
 * on. After WARMING seconds the rounds of SECONDS more are counted. It prints how many there were, the fewest and the most of a thread, and how many
 * nanoseconds they took by the clock and of processors. Where two threads have one lock at once, or more are at work than may be, it ends with status 1.
 */
public final class GradleRounds {
    private static final long WORK_BY_SLEEP = 500_000;
    /** Counts of two threads aren't in one cache line. */
    private static final int APART = 16;

    /** As many leases as the word says, and nobody changes that. */
    private static final class Leases implements ParallelismConfigurationManager {
        private final ParallelismConfiguration configuration;

        Leases(int most) {
            configuration = new DefaultParallelismConfiguration(true, most);
        }

        @Override
        public ParallelismConfiguration getParallelismConfiguration() {
            return configuration;
        }

        @Override
        public void setParallelismConfiguration(ParallelismConfiguration other) {
            throw new UnsupportedOperationException();
        }

        @Override
        public void addListener(ParallelismConfigurationListener listener) {}

        @Override
        public void removeListener(ParallelismConfigurationListener listener) {}
    }

    private final DefaultWorkerLeaseService service;
    private final int leases;
    private final int locks;
    private final long length;
    private final AtomicLongArray rounds;
    private final AtomicLongArray owners;
    private volatile boolean ended;

    private GradleRounds(int threads, int leases, int locks, long length) {
        this.service = new DefaultWorkerLeaseService(new DefaultResourceLockCoordinationService(), new Leases(leases));
        this.leases = leases;
        this.locks = locks;
        this.length = length;
        this.rounds = new AtomicLongArray(threads * APART);
        this.owners = new AtomicLongArray((locks + 1) * APART);
    }

    private static void demand(boolean holds, String what) {
        if (!holds) {
            System.err.println("wrong: " + what);
            Runtime.getRuntime().halt(1);
        }
    }

    private void work(int lock) {
        demand(owners.getAndIncrement(lock * APART) == 0, "one owner");
        if (length >= WORK_BY_SLEEP) {
            LockSupport.parkNanos(length);
        } else if (length > 0) {
            long begin = System.nanoTime();
            while (System.nanoTime() - begin < length) {}
        }
        owners.lazySet(lock * APART, 0);
    }

    private void turnAfterTurn(int thread) {
        int lock = thread % locks;
        List<ResourceLock> wanted = Arrays.asList(service.getProjectLock("build", "project " + lock), service.getWorkerLease());
        Runnable body = () -> work(lock);
        while (!ended) {
            service.withLocks(wanted, body);
            rounds.lazySet(thread * APART, rounds.get(thread * APART) + 1);
        }
    }

    private long[] counted(int threads) {
        long[] all = new long[threads];
        for (int thread = 0; thread < threads; thread++) {
            all[thread] = rounds.get(thread * APART);
        }
        return all;
    }

    private static long processorTime() {
        return ((com.sun.management.OperatingSystemMXBean) ManagementFactory.getOperatingSystemMXBean()).getProcessCpuTime();
    }

    private void measure(int threads, double warming, double seconds) throws InterruptedException {
        Thread[] started = new Thread[threads];
        for (int at = 0; at < threads; at++) {
            int thread = at;
            started[at] = new Thread(() -> turnAfterTurn(thread));
            started[at].start();
        }
        Thread.sleep((long) (warming * 1000));
        long[] first = counted(threads);
        long clock = System.nanoTime();
        long processor = processorTime();
        Thread.sleep((long) (seconds * 1000));
        long[] last = counted(threads);
        clock = System.nanoTime() - clock;
        processor = processorTime() - processor;
        ended = true;
        for (Thread thread : started) {
            thread.join();
        }
        for (int at = 0; at < threads; at++) {
            last[at] -= first[at];
        }
        Arrays.sort(last);
        System.out.println(Arrays.stream(last).sum() + " " + last[0] + " " + last[threads - 1] + " " + clock + " " + processor);
    }

    public static void main(String[] words) throws InterruptedException {
        int threads = Integer.parseInt(words[0]);
        int leases = Integer.parseInt(words[1]);
        int locks = Integer.parseInt(words[2]);
        long length = Long.parseLong(words[3]);
        new GradleRounds(threads, leases, locks, length).measure(threads, Double.parseDouble(words[4]), Double.parseDouble(words[5]));
    }
}
