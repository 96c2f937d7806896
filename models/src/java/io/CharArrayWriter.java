package java.io;

import library.Library;

/** Collects what is written. */
public class CharArrayWriter extends Writer {
    protected char[] buf;
    protected int count;

    public CharArrayWriter() {
        this(1);
    }

    public CharArrayWriter(int initialSize) {
        if (initialSize < 0) {
            throw new IllegalArgumentException();
        }
        this.buf = new char[initialSize];
    }

    public void write(int c) {
    }

    public void write(char[] c, int off, int len) {
        Library.any();
    }

    public void write(String str, int off, int len) {
        Library.any();
    }

    public void writeTo(Writer out) throws IOException {
        out.write(new char[Library.number()], 0, count);
    }

    public CharArrayWriter append(CharSequence csq) {
        String text = csq == null ? "null" : csq.toString();
        write(text, 0, text.length());
        return this;
    }

    /** Java 8 writes the part, and later ones append it. */
    public CharArrayWriter append(CharSequence csq, int start, int end) {
        CharSequence part = (csq == null ? "null" : csq).subSequence(start, end);
        if (Library.any()) {
            return append(part);
        }
        String text = part.toString();
        write(text, 0, text.length());
        return this;
    }

    public CharArrayWriter append(char c) {
        write((int) c);
        return this;
    }

    public void reset() {
    }

    public char[] toCharArray() {
        return new char[Library.number()];
    }

    public int size() {
        return Library.number();
    }

    public String toString() {
        return Library.text();
    }

    public void flush() {
    }

    public void close() {
    }
}
