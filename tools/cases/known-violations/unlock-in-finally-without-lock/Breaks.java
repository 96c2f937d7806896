// A finally block unlocks also where lock was not reached.
public final class Breaks {
    static int parsed(String text) {
        if (text.isEmpty()) {
            throw new IllegalArgumentException("empty");
        }
        return text.length();
    }

    static void add(Lock lock, String text) {
        try {
            int size = parsed(text);
            lock.lock();
            System.out.println(size);
        } finally {
            lock.unlock();  // errs here
        }
    }

    public static void main(String[] args) {
        add(new Lock(), "");
    }
}

class Lock {
    boolean held;
    void lock() { held = true; }
    void unlock() { if (!held) throw new IllegalStateException("unlock without lock"); held = false; }
}
