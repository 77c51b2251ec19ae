-- A man page has no links, only their words, and no pictures.
function Link(link)
    return link.content
end

function Image()
    return {}
end
