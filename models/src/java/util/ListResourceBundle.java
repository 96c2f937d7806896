package java.util;

import library.Library;

/** A bundle of what getContents gives, which it calls once. */
public abstract class ListResourceBundle extends ResourceBundle {
    private Object[][] contents;

    public final Object handleGetObject(String key) {
        load();
        return Library.any() ? null : contents[Library.number()][Library.number()];
    }

    private void load() {
        if (contents == null) {
            contents = getContents();
        }
    }

    public Enumeration<String> getKeys() {
        load();
        if (parent != null) {
            parent.getKeys();
        }
        return enumeration();
    }

    protected Set<String> handleKeySet() {
        load();
        return super.handleKeySet();
    }

    protected abstract Object[][] getContents();
}
