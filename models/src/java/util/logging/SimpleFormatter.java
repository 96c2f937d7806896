package java.util.logging;

/** Makes texts of records. */
public class SimpleFormatter extends Formatter {
    public synchronized String format(LogRecord record) {
        formatMessage(record);
        return all(record);
    }
}
