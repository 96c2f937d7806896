package java.util;

import java.io.IOException;
import java.io.InputStream;
import java.io.Reader;
import library.Library;
import library.Sources;

/** A bundle of texts, which it reads from a stream when it is made. */
public class PropertyResourceBundle extends ResourceBundle {
    public PropertyResourceBundle(InputStream stream) throws IOException {
        Library.mayFail();
        Sources.read(stream);
    }

    public PropertyResourceBundle(Reader reader) throws IOException {
        Library.mayFail();
        Sources.read(reader);
    }

    public Object handleGetObject(String key) {
        return Library.any() ? null : Library.text();
    }

    public Enumeration<String> getKeys() {
        if (parent != null) {
            parent.getKeys();
        }
        return enumeration();
    }

    protected Set<String> handleKeySet() {
        return super.handleKeySet();
    }
}
