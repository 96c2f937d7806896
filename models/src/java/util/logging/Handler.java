package java.util.logging;

import java.io.UnsupportedEncodingException;
import library.Library;

/** Takes records, by its filter and formatter. */
public abstract class Handler {
    private Formatter formatter;
    private Filter filter;
    private ErrorManager errorManager;
    private Level level;
    private String encoding;

    protected Handler() {
    }

    public abstract void publish(LogRecord record);

    public abstract void flush();

    public abstract void close() throws SecurityException;

    public synchronized void setFormatter(Formatter newFormatter) throws SecurityException {
        Library.any();
        formatter = newFormatter;
    }

    public Formatter getFormatter() {
        if (formatter == null && Library.any()) {
            formatter = new SimpleFormatter();
        }
        return formatter;
    }

    public synchronized void setEncoding(String encoding) throws SecurityException, UnsupportedEncodingException {
        mayRefuse();
        this.encoding = encoding;
    }

    private static native void mayRefuse() throws UnsupportedEncodingException;

    public String getEncoding() {
        return encoding == null && Library.any() ? Library.text() : encoding;
    }

    public synchronized void setFilter(Filter newFilter) throws SecurityException {
        Library.any();
        filter = newFilter;
    }

    public Filter getFilter() {
        return filter;
    }

    public synchronized void setErrorManager(ErrorManager em) {
        Library.any();
        errorManager = em;
    }

    public ErrorManager getErrorManager() {
        if (errorManager == null) {
            errorManager = manager();
        }
        return errorManager;
    }

    private static native ErrorManager manager();

    protected void reportError(String msg, Exception ex, int code) {
        if (errorManager != null && Library.any()) {
            errorManager.error(msg, ex, code);
        }
    }

    public synchronized void setLevel(Level newLevel) throws SecurityException {
        Library.any();
        level = newLevel;
    }

    public Level getLevel() {
        if (level == null) {
            level = level();
        }
        return level;
    }

    private static native Level level();

    public boolean isLoggable(LogRecord record) {
        getLevel();
        record.getLevel();
        Filter asked = getFilter();
        return asked == null || Library.any() ? Library.any() : asked.isLoggable(record);
    }

    /** As that of java.lang.Object. */
    @Override
    public String toString() {
        hashCode();
        return Library.text();
    }
}
