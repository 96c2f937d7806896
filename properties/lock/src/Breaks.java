/** Gives the lock back in the handler, and again after it. */
public final class Breaks {
    private Breaks() {
    }

    private static char first(Lock lock, String text) {
        lock.lock();
        char first = ' ';
        try {
            first = text.charAt(0);
        } catch (IndexOutOfBoundsException e) {
            lock.unlock();
        }
        lock.unlock();
        return first;
    }

    public static void main(String[] args) {
        Lock lock = new Lock();
        for (String text : args) {
            System.out.println(first(lock, text));
        }
    }
}
