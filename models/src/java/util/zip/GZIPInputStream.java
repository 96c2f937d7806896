package java.util.zip;

import java.io.IOException;
import java.io.InputStream;
import library.Library;

/** Unpacks what it reads from the stream that it wraps. It reads the header when it is made, and the next one at the end of a member. */
public class GZIPInputStream extends InflaterInputStream {
    public static final int GZIP_MAGIC = 0x8b1f;

    protected CRC32 crc = new CRC32();
    protected boolean eos;

    public GZIPInputStream(InputStream in, int size) throws IOException {
        super(in, new Inflater(true), size);
        draw(in);
    }

    public GZIPInputStream(InputStream in) throws IOException {
        this(in, 1);
    }

    public int read(byte[] buf, int off, int len) throws IOException {
        while (Library.any()) {
            if (Library.any()) {
                super.read(buf, off, len);
            }
            if (in != null && Library.any()) {
                in.available();
            }
            if (inf != null && Library.any()) {
                inf.getRemaining();
            }
            if (inf != null && Library.any()) {
                inf.getBytesWritten();
            }
            if (inf != null && Library.any()) {
                inf.reset();
            }
            if (crc != null && Library.any()) {
                crc.update(buf, off, len);
            }
            if (Library.any()) {
                draw(in);
            }
            if (Library.any()) {
                read(buf, off, len);
            }
        }
        Library.mayFail();
        return Library.number();
    }

    public void close() throws IOException {
        super.close();
    }
}
