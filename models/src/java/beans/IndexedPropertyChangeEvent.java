package java.beans;

import library.Library;

/** Tells of one value of a property that has many. */
public class IndexedPropertyChangeEvent extends PropertyChangeEvent {
    public IndexedPropertyChangeEvent(Object source, String propertyName, Object oldValue, Object newValue, int index) {
        super(source, propertyName, oldValue, newValue);
    }

    public int getIndex() {
        return Library.number();
    }
}
