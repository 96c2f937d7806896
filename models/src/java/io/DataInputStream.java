package java.io;

import library.Library;

/** Reads numbers and texts from the stream that it wraps. Each method may read and skip by each method of that stream that does. */
public class DataInputStream extends FilterInputStream implements DataInput {
    public DataInputStream(InputStream in) {
        super(in);
    }

    private int draw() throws IOException {
        do {
            Library.mayFail();
            if (in != null && Library.any()) {
                in.read(new byte[Library.number()], 0, Library.number());
            }
            if (in != null && Library.any()) {
                in.read();
            }
            if (in != null && Library.any()) {
                in.skip(Library.number());
            }
        } while (Library.any());
        return Library.number();
    }

    public final int read(byte[] b) throws IOException {
        return draw();
    }

    public final int read(byte[] b, int off, int len) throws IOException {
        return draw();
    }

    public final void readFully(byte[] b) throws IOException {
        draw();
    }

    public final void readFully(byte[] b, int off, int len) throws IOException {
        draw();
    }

    public final int skipBytes(int n) throws IOException {
        return draw();
    }

    public final boolean readBoolean() throws IOException {
        return draw() != 0;
    }

    public final byte readByte() throws IOException {
        return (byte) draw();
    }

    public final int readUnsignedByte() throws IOException {
        return draw();
    }

    public final short readShort() throws IOException {
        return (short) draw();
    }

    public final int readUnsignedShort() throws IOException {
        return draw();
    }

    public final char readChar() throws IOException {
        return (char) draw();
    }

    public final int readInt() throws IOException {
        return draw();
    }

    public final long readLong() throws IOException {
        return draw();
    }

    public final float readFloat() throws IOException {
        return draw();
    }

    public final double readDouble() throws IOException {
        return draw();
    }

    /** A line that ends with a carriage return makes the stream wrap its own stream in one that takes a byte back. */
    public final String readLine() throws IOException {
        draw();
        if (Library.any()) {
            this.in = new PushbackInputStream(in);
        }
        if (in instanceof PushbackInputStream && Library.any()) {
            ((PushbackInputStream) in).unread(Library.number());
        }
        draw();
        return Library.any() ? null : Library.text();
    }

    public final String readUTF() throws IOException {
        draw();
        return Library.text();
    }

    public static final String readUTF(DataInput in) throws IOException {
        in.readUnsignedShort();
        Library.mayFail();
        if (Library.any()) {
            in.readFully(new byte[Library.number()], 0, Library.number());
        }
        Library.mayFail();
        return Library.text();
    }
}
