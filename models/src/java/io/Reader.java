package java.io;

import java.nio.CharBuffer;
import library.Library;

/** A reader: all that it has of its own comes from the one method that reads into an array. */
public abstract class Reader implements Readable, Closeable {
    protected Object lock;

    protected Reader() {
        this.lock = this;
    }

    protected Reader(Object lock) {
        if (lock == null) {
            throw new NullPointerException();
        }
        this.lock = lock;
    }

    public int read(CharBuffer target) throws IOException {
        int count = read(new char[target.remaining()], 0, Library.number());
        if (Library.any()) {
            target.put(new char[count], 0, count);
        }
        return count;
    }

    public int read() throws IOException {
        return read(new char[1], 0, 1);
    }

    public int read(char[] cbuf) throws IOException {
        return read(cbuf, 0, cbuf.length);
    }

    public abstract int read(char[] cbuf, int off, int len) throws IOException;

    public long skip(long n) throws IOException {
        while (Library.any()) {
            read(new char[Library.number()], 0, Library.number());
        }
        return Library.number();
    }

    public boolean ready() throws IOException {
        return false;
    }

    public boolean markSupported() {
        return false;
    }

    public void mark(int readAheadLimit) throws IOException {
        Library.mayFail();
    }

    public void reset() throws IOException {
        Library.mayFail();
    }

    public abstract void close() throws IOException;
}
