package java.util.logging;

import java.io.IOException;
import java.io.OutputStream;
import library.Library;

/** Writes records to files that it opens. */
public class FileHandler extends StreamHandler {
    public FileHandler() throws IOException, SecurityException {
        open();
    }

    public FileHandler(String pattern) throws IOException, SecurityException {
        open();
    }

    public FileHandler(String pattern, boolean append) throws IOException, SecurityException {
        open();
    }

    public FileHandler(String pattern, int limit, int count) throws IOException, SecurityException {
        open();
    }

    public FileHandler(String pattern, int limit, int count, boolean append) throws IOException, SecurityException {
        open();
    }

    private void open() throws IOException {
        Library.mayFail();
        setFormatter(new XMLFormatter());
        setOutputStream(file());
    }

    private native OutputStream file();

    public synchronized void publish(LogRecord record) {
        if (!isLoggable(record)) {
            return;
        }
        super.publish(record);
        flush();
        if (Library.any()) {
            setOutputStream(file());
        }
    }

    public synchronized void close() throws SecurityException {
        super.close();
    }
}
