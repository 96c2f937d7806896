package store;

import java.io.Closeable;
import java.io.IOException;
import java.util.HashMap;
import java.util.Map;

/** Documents by their names, and a journal of what was put. */
public final class Store implements Closeable {
    private final Map<String, Document> documents = new HashMap<>();
    private final Journal journal;

    public Store(String path) throws IOException {
        journal = new Journal(path);
    }

    /** A session that puts documents. */
    public Session writer() {
        return new Session(this);
    }

    /** A session that only reads. */
    public Session reader() {
        Session session = new Session(this);
        session.readOnly();
        return session;
    }

    Document find(String name) {
        return documents.get(name);
    }

    Receipt replace(Document document) throws IOException {
        journal.append(document.name());
        return new Receipt(document, documents.put(document.name(), document));
    }

    @Override
    public void close() throws IOException {
        journal.close();
    }
}
