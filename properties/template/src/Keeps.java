/** Makes a resource, asks whether it is opened, and closes it; it is never used. */
public final class Keeps {
    private Keeps() {
    }

    public static void main(String[] args) {
        Resource resource = new Resource();
        System.out.println(resource.isOpened());
        resource.close();
    }
}
