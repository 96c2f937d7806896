package java.io;

import library.Library;

/** Collects what is written. */
public class ByteArrayOutputStream extends OutputStream {
    protected byte[] buf;
    protected int count;

    public ByteArrayOutputStream() {
        this(1);
    }

    public ByteArrayOutputStream(int size) {
        if (size < 0) {
            throw new IllegalArgumentException();
        }
        this.buf = new byte[size];
    }

    public void write(int b) {
    }

    /** As OutputStream has it, which is only described. */
    public void write(byte[] b) throws IOException {
        write(b, 0, b.length);
    }

    public void write(byte[] b, int off, int len) {
        Library.any();
    }

    /** Writes bytes: write(int) is what OutputStream's own body calls. */
    public void writeTo(OutputStream out) throws IOException {
        out.write(new byte[Library.number()], 0, count);
        while (Library.any()) {
            out.write(Library.number());
        }
    }

    public void reset() {
    }

    public byte[] toByteArray() {
        return new byte[Library.number()];
    }

    public int size() {
        return Library.number();
    }

    public String toString() {
        return Library.text();
    }

    public String toString(String charsetName) throws UnsupportedEncodingException {
        if (Library.any()) {
            throw new UnsupportedEncodingException();
        }
        return Library.text();
    }

    public String toString(int hibyte) {
        return Library.text();
    }

    public void close() throws IOException {
    }
}
