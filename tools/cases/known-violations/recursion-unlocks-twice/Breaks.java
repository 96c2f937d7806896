// Each call of a recursion unlocks, and only the first one locks.
public final class Breaks {
    static void walk(Lock lock, int depth) {
        if (depth == 2) {
            lock.lock();
        }
        if (depth > 0) {
            walk(lock, depth - 1);
        }
        lock.unlock();  // errs here
    }

    public static void main(String[] args) {
        walk(new Lock(), 2);
    }
}

class Lock {
    boolean held;
    void lock() { held = true; }
    void unlock() {
        if (!held) {
            throw new IllegalStateException("unlock without lock");
        }
        held = false;
    }
}
