package java.util.logging;

import library.Library;

/** Makes XML of records. */
public class XMLFormatter extends Formatter {
    public String format(LogRecord record) {
        formatMessage(record);
        return all(record);
    }

    public String getHead(Handler h) {
        h.getEncoding();
        return Library.text();
    }

    public String getTail(Handler h) {
        return Library.text();
    }
}
