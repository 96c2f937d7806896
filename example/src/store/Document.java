package store;

/** A text with a name. */
public final class Document {
    private final String name;
    private final String text;

    public Document(String name, String text) {
        this.name = name;
        this.text = text;
    }

    public String name() {
        return name;
    }

    public String text() {
        return text;
    }
}
