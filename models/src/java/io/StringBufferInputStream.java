package java.io;

import library.Library;

/** Reads the characters of a text as bytes. */
public class StringBufferInputStream extends InputStream {
    protected String buffer;
    protected int pos;
    protected int count;

    public StringBufferInputStream(String s) {
        this.buffer = s;
        this.count = s.length();
    }

    public int read() {
        return Library.number();
    }

    /** As InputStream has it, which is only described. */
    public int read(byte[] b) throws IOException {
        return read(b, 0, b.length);
    }

    public int read(byte[] b, int off, int len) {
        return Library.number();
    }

    public long skip(long n) {
        return Library.number();
    }

    public int available() {
        return Library.number();
    }

    public void reset() {
    }

    /** Of Java 9 and later, as InputStream has it, which is only described; so are the four methods below. */
    public byte[] readAllBytes() throws IOException {
        return readNBytes(Library.number());
    }

    public byte[] readNBytes(int len) throws IOException {
        while (Library.any()) {
            read(new byte[Library.number()], 0, Library.number());
        }
        return new byte[Library.number()];
    }

    public int readNBytes(byte[] b, int off, int len) throws IOException {
        while (Library.any()) {
            read(b, off, len);
        }
        return Library.number();
    }

    public void skipNBytes(long n) throws IOException {
        Library.mayFail();
        while (Library.any()) {
            if (Library.any()) {
                skip(n);
            }
            if (Library.any()) {
                read();
            }
        }
    }

    public long transferTo(OutputStream out) throws IOException {
        while (Library.any()) {
            if (Library.any()) {
                read(new byte[Library.number()], 0, Library.number());
            }
            if (Library.any()) {
                out.write(new byte[Library.number()], 0, Library.number());
            }
            if (Library.any()) {
                out.write(Library.number());
            }
        }
        return Library.number();
    }
}
