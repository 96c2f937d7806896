package store;

/** What the store could not do. */
public final class StoreException extends Exception {
    public StoreException(String message) {
        super(message);
    }
}
