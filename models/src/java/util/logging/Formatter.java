package java.util.logging;

import java.util.ResourceBundle;
import library.Elements;
import library.Library;

/** Makes texts of records: those of their parameters, of what was thrown, and of their bundle are asked for. */
public abstract class Formatter {
    protected Formatter() {
    }

    public abstract String format(LogRecord record);

    public String getHead(Handler h) {
        return Library.text();
    }

    public String getTail(Handler h) {
        return Library.text();
    }

    public synchronized String formatMessage(LogRecord record) {
        return message(record);
    }

    private static String message(LogRecord record) {
        String format = record.getMessage();
        ResourceBundle bundle = record.getResourceBundle();
        if (bundle != null && Library.any()) {
            format = bundle.getString(format);
        }
        Object[] parameters = record.getParameters();
        while (parameters != null && Library.any()) {
            Elements.text(parameters[Library.number()]);
        }
        return Library.any() ? format : Library.text();
    }

    /** All that a formatter of the library asks a record. */
    static String all(LogRecord record) {
        record.getLoggerName();
        record.getLevel();
        record.getMillis();
        record.getSequenceNumber();
        record.getThreadID();
        record.getSourceClassName();
        record.getSourceMethodName();
        record.getResourceBundleName();
        Throwable thrown = record.getThrown();
        if (thrown != null && Library.any()) {
            thrown.printStackTrace();
        }
        if (thrown != null && Library.any()) {
            thrown.toString();
        }
        if (thrown != null && Library.any()) {
            thrown.getStackTrace();
        }
        return message(record);
    }
}
