package java.util;

/** It is told when an observed object changes. */
public interface Observer {
    void update(Observable observed, Object what);
}
