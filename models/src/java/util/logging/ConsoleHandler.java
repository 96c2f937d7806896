package java.util.logging;

/**
 * Writes records to System.err, which it does not close. In the library it gets that stream by setOutputStream, which it does not call here,
 * since that closes the stream before.
 */
public class ConsoleHandler extends StreamHandler {
    public ConsoleHandler() {
        output = System.err;
    }

    public void publish(LogRecord record) {
        super.publish(record);
        flush();
    }

    public void close() {
        flush();
    }
}
