package java.io;

import library.Library;

/**
 * Writes what it is given to the stream that it wraps, then or later. It has the field and the methods of FilterOutputStream too, since that
 * class is only described: the field `out` here is the one that classes below this one see.
 */
public class BufferedOutputStream extends FilterOutputStream {
    protected OutputStream out;
    protected byte[] buf;
    protected int count;

    public BufferedOutputStream(OutputStream out) {
        this(out, 1);
    }

    public BufferedOutputStream(OutputStream out, int size) {
        super(null);
        if (size <= 0) {
            throw new IllegalArgumentException();
        }
        this.out = out;
        this.buf = new byte[size];
    }

    /** Writes bytes: write(int) is what OutputStream's own body calls. */
    private void pour() throws IOException {
        do {
            Library.mayFail();
            if (out != null && Library.any()) {
                out.write(new byte[Library.number()], 0, Library.number());
            }
            if (out != null && Library.any()) {
                out.write(Library.number());
            }
        } while (Library.any());
    }

    public void write(int b) throws IOException {
        pour();
    }

    public void write(byte[] b) throws IOException {
        write(b, 0, b.length);
    }

    public void write(byte[] b, int off, int len) throws IOException {
        pour();
    }

    public void flush() throws IOException {
        pour();
        if (out != null && Library.any()) {
            out.flush();
        }
    }

    public void close() throws IOException {
        try (OutputStream closed = Library.any() ? out : null) {
            if (Library.any()) {
                flush();
            }
        }
    }
}
