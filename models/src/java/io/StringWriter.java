package java.io;

import library.Library;

/** Collects what is written, in a buffer that it gives out. */
public class StringWriter extends Writer {
    private StringBuffer buf;

    public StringWriter() {
        this.buf = new StringBuffer();
        this.lock = buf;
    }

    public StringWriter(int initialSize) {
        this();
        if (initialSize < 0) {
            throw new IllegalArgumentException();
        }
    }

    public void write(int c) {
    }

    public void write(char[] cbuf, int off, int len) {
        Library.any();
    }

    public void write(String str) {
    }

    public void write(String str, int off, int len) {
        Library.any();
    }

    public StringWriter append(CharSequence csq) {
        write(csq == null ? "null" : csq.toString());
        return this;
    }

    /** Java 8 writes the part, and later ones append it. */
    public StringWriter append(CharSequence csq, int start, int end) {
        CharSequence part = (csq == null ? "null" : csq).subSequence(start, end);
        if (Library.any()) {
            return append(part);
        }
        write(part.toString());
        return this;
    }

    public StringWriter append(char c) {
        write((int) c);
        return this;
    }

    public String toString() {
        return Library.text();
    }

    public StringBuffer getBuffer() {
        if (buf == null) {
            this.buf = new StringBuffer();
        }
        return buf;
    }

    public void flush() {
    }

    public void close() throws IOException {
    }
}
