// A finally block unlocks also where lock was not reached.
public final class Keeps {
    static int parsed(String text) {
        if (text.isEmpty()) {
            throw new IllegalArgumentException("empty");
        }
        return text.length();
    }

    static void add(Lock lock, String text) {
        try {
            lock.lock();
            int size = parsed(text);
            System.out.println(size);
        } finally {
            lock.unlock();
        }
    }

    public static void main(String[] args) {
        add(new Lock(), "a");
    }
}

class Lock {
    boolean held;
    void lock() { held = true; }
    void unlock() { if (!held) throw new IllegalStateException("unlock without lock"); held = false; }
}
