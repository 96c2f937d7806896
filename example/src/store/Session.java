package store;

import java.io.IOException;

/** The way to the documents of a store. Once it was made read-only, nothing may be put. */
public final class Session {
    private final Store store;
    private boolean readOnly;

    Session(Store store) {
        this.store = store;
    }

    public void readOnly() {
        readOnly = true;
    }

    public Document get(String name) throws StoreException {
        Document found = store.find(name);
        if (found == null) {
            throw new StoreException("there is no document " + name);
        }
        return found;
    }

    public Receipt put(Document document) throws IOException {
        if (readOnly) {
            throw new IllegalStateException("the session is read-only");
        }
        return store.replace(document);
    }
}
