package java.util;

import library.Elements;
import library.Library;

/** It tells its observers that it changed, in any order. More than in the library: also those that were taken away. */
public class Observable {
    private Observer[] observers;

    public Observable() {
    }

    public synchronized void addObserver(Observer observer) {
        search(observer);
        if (observers == null || Library.any()) {
            grow();
        }
        observers[Library.number()] = observer;
    }

    public synchronized void deleteObserver(Observer observer) {
        search(observer);
    }

    public void notifyObservers() {
        notifyObservers(null);
    }

    public void notifyObservers(Object what) {
        if (Library.any()) {
            return;
        }
        clearChanged();
        while (observers != null && Library.any()) {
            Observer observer = observers[Library.number()];
            if (observer != null) {
                observer.update(this, what);
            }
        }
    }

    public synchronized void deleteObservers() {
    }

    protected synchronized void setChanged() {
    }

    protected synchronized void clearChanged() {
    }

    public synchronized boolean hasChanged() {
        return Library.any();
    }

    public synchronized int countObservers() {
        return Library.number();
    }

    /** More room for observers. */
    private void grow() {
        Observer[] more = new Observer[Library.number()];
        while (observers != null && Library.any()) {
            more[Library.number()] = observers[Library.number()];
        }
        observers = more;
    }

    /** Looks for an observer by equals. */
    private void search(Observer observer) {
        while (observers != null && Library.any()) {
            if (Library.any()) {
                Elements.equal(observer, observers[Library.number()]);
            } else {
                Elements.equal(observers[Library.number()], observer);
            }
        }
    }
}
