package store;

import java.io.Closeable;
import java.io.FileOutputStream;
import java.io.IOException;
import java.util.zip.CRC32;

/** Entries in a file, each on a line with a checksum of all before it. Nothing may be appended once it is closed. */
public final class Journal implements Closeable {
    private final FileOutputStream file;
    private final CRC32 sum = new CRC32();
    private boolean closed;

    public Journal(String path) throws IOException {
        file = new FileOutputStream(path);
    }

    public void append(String entry) throws IOException {
        if (closed) {
            throw new IllegalStateException("the journal is closed");
        }
        for (int i = 0; i < entry.length(); i++) {
            sum.update(entry.charAt(i));
        }
        String line = entry + " " + sum.getValue() + "\n";
        for (int i = 0; i < line.length(); i++) {
            file.write(line.charAt(i));
        }
    }

    @Override
    public void close() throws IOException {
        closed = true;
        file.close();
    }
}
