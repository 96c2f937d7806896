package java.io;

import library.Library;

/**
 * Writes numbers and texts to the stream that it wraps. It has the field and the methods of FilterOutputStream too, since that class is only
 * described: the field `out` here is the one that classes below this one see.
 */
public class DataOutputStream extends FilterOutputStream implements DataOutput {
    protected OutputStream out;
    protected int written;

    public DataOutputStream(OutputStream out) {
        super(null);
        this.out = out;
    }

    /** Writes bytes: write(int) is what OutputStream's own body calls. */
    private void pour() throws IOException {
        do {
            Library.mayFail();
            if (out != null && Library.any()) {
                out.write(new byte[Library.number()], 0, Library.number());
            }
            if (out != null && Library.any()) {
                out.write(Library.number());
            }
        } while (Library.any());
    }

    public void write(int b) throws IOException {
        pour();
    }

    public void write(byte[] b) throws IOException {
        write(b, 0, b.length);
    }

    public void write(byte[] b, int off, int len) throws IOException {
        pour();
    }

    public void flush() throws IOException {
        Library.mayFail();
        if (out != null) {
            out.flush();
        }
    }

    public void close() throws IOException {
        try (OutputStream closed = Library.any() ? out : null) {
            if (Library.any()) {
                flush();
            }
        }
    }

    public final void writeBoolean(boolean v) throws IOException {
        pour();
    }

    public final void writeByte(int v) throws IOException {
        pour();
    }

    public final void writeShort(int v) throws IOException {
        pour();
    }

    public final void writeChar(int v) throws IOException {
        pour();
    }

    public final void writeInt(int v) throws IOException {
        pour();
    }

    public final void writeLong(long v) throws IOException {
        pour();
    }

    public final void writeFloat(float v) throws IOException {
        pour();
    }

    public final void writeDouble(double v) throws IOException {
        pour();
    }

    public final void writeBytes(String s) throws IOException {
        pour();
    }

    public final void writeChars(String s) throws IOException {
        pour();
    }

    public final void writeUTF(String str) throws IOException {
        Library.mayFail();
        write(new byte[Library.number()], 0, Library.number());
    }

    public final int size() {
        return Library.number();
    }
}
