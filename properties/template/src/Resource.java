/** Is opened, used and closed. */
public class Resource {
    private boolean opened;

    public void open() {
        opened = true;
    }

    public int use(int number) {
        if (!opened) {
            throw new IllegalStateException("the resource is not open");
        }
        return number + 1;
    }

    public boolean isOpened() {
        return opened;
    }

    public void close() {
        opened = false;
    }
}
