// Each call of a recursion unlocks, and only the first one locks.
public final class Keeps {
    static void walk(Lock lock, int depth) {
        if (depth >= 0) {
            lock.lock();
        }
        if (depth > 0) {
            walk(lock, depth - 1);
        }
        if (depth == 0) {
            lock.unlock();
        }
    }

    public static void main(String[] args) {
        walk(new Lock(), 2);
    }
}

class Lock {
    boolean held;
    void lock() { held = true; }
    void unlock() {
        if (!held) {
            throw new IllegalStateException("unlock without lock");
        }
        held = false;
    }
}
