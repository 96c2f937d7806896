package java.io;

import library.Library;

/** Reads ahead from the stream that it wraps. Each method that reads, skips or asks may call each method of that stream that does. */
public class BufferedInputStream extends FilterInputStream {
    protected volatile byte[] buf;
    protected int count;
    protected int pos;
    protected int markpos;
    protected int marklimit;

    public BufferedInputStream(InputStream in) {
        this(in, 1);
    }

    public BufferedInputStream(InputStream in, int size) {
        super(in);
        if (size <= 0) {
            throw new IllegalArgumentException();
        }
        this.buf = new byte[size];
    }

    private void draw() throws IOException {
        do {
            Library.mayFail();
            if (in != null && Library.any()) {
                in.read(new byte[Library.number()], 0, Library.number());
            }
            if (in != null && Library.any()) {
                in.read();
            }
            if (in != null && Library.any()) {
                in.skip(Library.number());
            }
            if (in != null && Library.any()) {
                in.available();
            }
        } while (Library.any());
    }

    public int read() throws IOException {
        draw();
        return Library.number();
    }

    public int read(byte[] b, int off, int len) throws IOException {
        draw();
        return Library.number();
    }

    public long skip(long n) throws IOException {
        draw();
        return Library.number();
    }

    public int available() throws IOException {
        draw();
        return Library.number();
    }

    public void mark(int readlimit) {
    }

    public void reset() throws IOException {
        Library.mayFail();
    }

    public boolean markSupported() {
        return true;
    }

    public void close() throws IOException {
        super.close();
    }
}
