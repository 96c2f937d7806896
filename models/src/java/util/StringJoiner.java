package java.util;

import library.Elements;
import library.Library;

/** Joins texts. More than in the library: it reads each text in each way, some of which are those of later versions. */
public final class StringJoiner {
    public StringJoiner(CharSequence between) {
        this(between, "", "");
    }

    public StringJoiner(CharSequence between, CharSequence before, CharSequence after) {
        read(before);
        read(between);
        read(after);
    }

    public StringJoiner setEmptyValue(CharSequence text) {
        read(text);
        return this;
    }

    @Override
    public String toString() {
        return Library.text();
    }

    public StringJoiner add(CharSequence text) {
        read(text);
        return this;
    }

    public StringJoiner merge(StringJoiner other) {
        Objects.requireNonNull(other);
        return this;
    }

    public int length() {
        return Library.number();
    }

    /** Reads a text, which may be one of the user. */
    private static void read(CharSequence text) {
        while (text != null && Library.any()) {
            if (Library.any()) {
                text.length();
            } else if (Library.any()) {
                text.charAt(Library.number());
            } else {
                Elements.text(text);
            }
        }
    }
}
