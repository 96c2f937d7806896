package java.util.logging;

import java.io.IOException;
import java.io.OutputStream;
import java.io.UnsupportedEncodingException;
import library.Library;

/** Writes records to a stream, and closes it when it is closed or gets another one. What fails it reports. */
public class StreamHandler extends Handler {
    OutputStream output;

    public StreamHandler() {
        setFormatter(new SimpleFormatter());
    }

    public StreamHandler(OutputStream out, Formatter formatter) {
        setFormatter(formatter);
        setOutputStream(out);
    }

    protected synchronized void setOutputStream(OutputStream out) throws SecurityException {
        if (out == null) {
            throw new NullPointerException();
        }
        end();
        output = out;
    }

    public synchronized void setEncoding(String encoding) throws SecurityException, UnsupportedEncodingException {
        super.setEncoding(encoding);
        if (Library.any()) {
            flush();
        }
    }

    public synchronized void publish(LogRecord record) {
        if (!isLoggable(record)) {
            return;
        }
        try {
            Formatter formatter = getFormatter();
            if (formatter != null && Library.any()) {
                formatter.getHead(this);
            }
            if (formatter != null && Library.any()) {
                formatter.format(record);
            }
        } catch (Exception fault) {
            reportError(null, fault, Library.number());
        }
        write();
    }

    /** Writes, or does not. */
    private void write() {
        try {
            Library.mayFail();
            while (output != null && Library.any()) {
                if (Library.any()) {
                    output.write(new byte[Library.number()], 0, Library.number());
                } else {
                    output.write(Library.number());
                }
            }
        } catch (Exception fault) {
            reportError(null, fault, Library.number());
        }
    }

    public boolean isLoggable(LogRecord record) {
        return record != null && Library.any() && super.isLoggable(record);
    }

    public synchronized void flush() {
        write();
        try {
            Library.mayFail();
            if (output != null && Library.any()) {
                output.flush();
            }
        } catch (Exception fault) {
            reportError(null, fault, Library.number());
        }
    }

    public synchronized void close() throws SecurityException {
        Library.any();
        end();
    }

    /** Writes the end, and closes the stream. */
    private void end() {
        try {
            Formatter formatter = getFormatter();
            if (output != null && formatter != null && Library.any()) {
                formatter.getHead(this);
                formatter.getTail(this);
            }
        } catch (Exception fault) {
            reportError(null, fault, Library.number());
        }
        write();
        try {
            Library.mayFail();
            if (output != null && Library.any()) {
                output.flush();
            }
            if (output != null && Library.any()) {
                output.close();
            }
        } catch (Exception fault) {
            reportError(null, fault, Library.number());
        }
    }
}
