/** A lock that a program holds for itself. */
public final class Lock {
    private boolean held;

    public void lock() {
        held = true;
    }

    public void unlock() {
        if (!held) {
            throw new IllegalStateException("nobody holds the lock");
        }
        held = false;
    }

    public boolean isHeld() {
        return held;
    }
}
